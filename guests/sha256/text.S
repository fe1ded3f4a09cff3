# The text, as it stands in its file.
    .section .rodata
    .globl  text, text_end
text:
    .incbin "sha256/text.txt"
text_end:
    .section .note.GNU-stack, "", @progbits
