/* Lines out of bytes. What does not fit into a line is dropped. */
#include "console.h"

enum { LINE = 4096 };

static char line[LINE + 1];
static uint32_t length;

void take(char byte)
{
    if (byte != '\n') {
        if (length < LINE)
            line[length++] = byte;
        return;
    }
    line[length] = 0;
    run_line(line, length);
    length = 0;
}
