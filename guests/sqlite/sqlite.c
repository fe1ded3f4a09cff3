/* SQLite as a service, over the kit's console: one database, in memory, which is what the keepers hold. A line has statements; it prints each row, its
   values with | between them, and then `ok`, or what is wrong. */
#include "console.h"
#include "sqlite3.h"

enum { MEMORY = 64 * 4096, LEAST = 32 };

static char memory[MEMORY] __attribute__((aligned(64)));
static sqlite3 *database;

/* ---- a system without files, chance and time */

static int open_none(sqlite3_vfs *vfs, const char *name, sqlite3_file *file, int flags, int *got)
{
    (void)vfs;
    (void)name;
    (void)flags;
    (void)got;
    file->pMethods = NULL;
    return SQLITE_CANTOPEN;
}

static int delete_none(sqlite3_vfs *vfs, const char *name, int sync)
{
    (void)vfs;
    (void)name;
    (void)sync;
    return SQLITE_OK;
}

static int access_none(sqlite3_vfs *vfs, const char *name, int flags, int *found)
{
    (void)vfs;
    (void)name;
    (void)flags;
    *found = 0;
    return SQLITE_OK;
}

static int full_name(sqlite3_vfs *vfs, const char *name, int room, char *full)
{
    (void)vfs;
    sqlite3_snprintf(room, full, "%s", name);
    return SQLITE_OK;
}

static int no_chance(sqlite3_vfs *vfs, int count, char *bytes)
{
    (void)vfs;
    for (int at = 0; at < count; at++)
        bytes[at] = 0;
    return count;
}

static int sleep_none(sqlite3_vfs *vfs, int microseconds)
{
    (void)vfs;
    return microseconds;
}

/* The first day of 1970, as a Julian day. */
static int first_day(sqlite3_vfs *vfs, double *day)
{
    (void)vfs;
    *day = 2440587.5;
    return SQLITE_OK;
}

static int no_error(sqlite3_vfs *vfs, int room, char *text)
{
    (void)vfs;
    (void)room;
    (void)text;
    return 0;
}

static sqlite3_vfs system_of_none = {
    .iVersion = 1,
    .szOsFile = sizeof(sqlite3_file),
    .mxPathname = 64,
    .zName = "none",
    .xOpen = open_none,
    .xDelete = delete_none,
    .xAccess = access_none,
    .xFullPathname = full_name,
    .xRandomness = no_chance,
    .xSleep = sleep_none,
    .xCurrentTime = first_day,
    .xGetLastError = no_error,
};

int sqlite3_os_init(void)
{
    return sqlite3_vfs_register(&system_of_none, 1);
}

int sqlite3_os_end(void)
{
    return SQLITE_OK;
}

/* ---- statements */

void begin(void)
{
    sqlite3_config(SQLITE_CONFIG_HEAP, memory, MEMORY, LEAST);
    if (sqlite3_initialize() != SQLITE_OK || sqlite3_open(":memory:", &database) != SQLITE_OK)
        put_text("no database\n");
}

static int print_row(void *unused, int count, char **values, char **names)
{
    (void)unused;
    (void)names;
    for (int at = 0; at < count; at++) {
        if (at > 0)
            put('|', stdout);
        if (values[at])
            put_text(values[at]);
    }
    put('\n', stdout);
    return 0;
}

void run_line(char *line, uint32_t length)
{
    (void)length;
    char *why = NULL;
    if (sqlite3_exec(database, line, print_row, NULL, &why) == SQLITE_OK) {
        put_text("ok\n");
        return;
    }
    put_text(why ? why : "error");
    put('\n', stdout);
    sqlite3_free(why);
}
