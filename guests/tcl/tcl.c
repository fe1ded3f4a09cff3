/* Jim Tcl as a service, over the kit's console: each line is a script, and prints its result. */
#include "console.h"
#include "jim.h"

static Jim_Interp *interpreter;

static int print(Jim_Interp *from, int count, Jim_Obj *const *words)
{
    (void)from;
    put_text(Jim_String(words[count - 1]));
    put('\n', stdout);
    return JIM_OK;
}

void begin(void)
{
    interpreter = Jim_CreateInterp();
    Jim_RegisterCoreCommands(interpreter);
    Jim_CreateCommand(interpreter, "puts", print, NULL, NULL);
}

void run_line(char *line, uint32_t length)
{
    (void)length;
    Jim_Eval(interpreter, line);
    put_text(Jim_String(Jim_GetResult(interpreter)));
    put('\n', stdout);
}
