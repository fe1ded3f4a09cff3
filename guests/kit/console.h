/* A console of words. What a client sends are input words of hart 0, four bytes of text each, the first in the lowest byte; bytes of 0 are passed over.
   Each word is answered by one output: the next four bytes of what was printed so far, or 0 where nothing waits. So who asks sends a line, and then words of
   0 until its answer's last byte came. */
#ifndef CONSOLE_H
#define CONSOLE_H

#include <stdint.h>
#include <stdio.h>

/* What a program does before the first byte comes. Each program defines it. */
void begin(void);

/* A byte that came. A program of lines (lines.c) has it defined. */
void take(char byte);

/* A line that came, without its newline, a 0 behind it. A program of lines defines it. */
void run_line(char *line, uint32_t length);

/* Print a byte, and a text. What does not fit is dropped. */
int put(char byte, FILE *file);
void put_text(const char *text);

#endif
