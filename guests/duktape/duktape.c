/* Duktape as a service, over the kit's console: each line is a program in ECMAScript, and prints its value. */
#include <stdlib.h>

#include "console.h"
#include "duktape.h"

static duk_context *context;

static duk_ret_t print(duk_context *from)
{
    duk_idx_t count = duk_get_top(from);
    for (duk_idx_t at = 0; at < count; at++) {
        if (at > 0)
            put(' ', stdout);
        put_text(duk_safe_to_string(from, at));
    }
    put('\n', stdout);
    return 0;
}

static void fail(void *unused, const char *why)
{
    (void)unused;
    (void)why;
    abort();
}

void begin(void)
{
    context = duk_create_heap(NULL, NULL, NULL, NULL, fail);
    duk_push_c_function(context, print, DUK_VARARGS);
    duk_put_global_string(context, "print");
}

void run_line(char *line, uint32_t length)
{
    duk_peval_lstring(context, line, length);
    put_text(duk_safe_to_string(context, -1));
    put('\n', stdout);
    duk_pop(context);
}
