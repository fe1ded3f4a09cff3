/* Lua as a service, over the kit's console. A line that is an expression prints its value, as Lua's own prompt does; what a line leaves in globals stays. */
#include "console.h"

#include "lauxlib.h"
#include "lua.h"
#include "lualib.h"

static const luaL_Reg libraries[] = {
    {LUA_GNAME, luaopen_base},         {LUA_TABLIBNAME, luaopen_table}, {LUA_STRLIBNAME, luaopen_string},
    {LUA_MATHLIBNAME, luaopen_math},   {LUA_UTF8LIBNAME, luaopen_utf8}, {LUA_COLIBNAME, luaopen_coroutine},
};

static lua_State *state;

void begin(void)
{
    state = luaL_newstate();
    for (size_t at = 0; at < sizeof libraries / sizeof *libraries; at++) {
        luaL_requiref(state, libraries[at].name, libraries[at].func, 1);
        lua_pop(state, 1);
    }
}

/* Loads the line as an expression whose value is returned, and else as statements. */
static int load(const char *line, uint32_t length)
{
    lua_pushfstring(state, "return %s", line);
    int status = luaL_loadstring(state, lua_tostring(state, -1));
    lua_remove(state, -2);
    if (status == LUA_OK)
        return status;
    lua_pop(state, 1);
    return luaL_loadbuffer(state, line, length, "=line");
}

static int print(lua_State *from)
{
    int values = lua_gettop(from);
    for (int at = 1; at <= values; at++) {
        size_t size;
        const char *text = luaL_tolstring(from, at, &size);
        if (at > 1)
            put('\t', stdout);
        for (size_t byte = 0; byte < size; byte++)
            put(text[byte], stdout);
        lua_pop(from, 1);
    }
    put('\n', stdout);
    return 0;
}

void run_line(char *line, uint32_t length)
{
    int failed = load(line, length) || lua_pcall(state, 0, LUA_MULTRET, 0);
    if (failed || lua_gettop(state) > 0) {
        lua_pushcfunction(state, print);
        lua_insert(state, 1);
        if (lua_pcall(state, lua_gettop(state) - 1, 0, 0))
            put('\n', stdout);
    }
    lua_settop(state, 0);
}
