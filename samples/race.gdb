# Who wrote the balance of guests/race last, and who before: read by gdb-multiarch at the top of the repository.
set architecture riscv:rv32
set confirm off
target remote | crates/workbench/out/workbench debug samples/race.image samples/race.log
continue
watch *(int *) 0x8000100c
reverse-continue
reverse-continue
