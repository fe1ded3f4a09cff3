/* What Jim finds of picolibc: as its own configure would say it, without files, signals and tables of Unicode. */
#define HAVE_LONG_LONG 1
#define HAVE_STDLIB_H 1
#define HAVE_STRINGS_H 1
#define HAVE_UNISTD_H 1
#define HAVE_SYS_TIME_H 1
#define HAVE_SYS_STAT_H 1
#define HAVE_STRUCT_TIMEVAL 1
#define SIZEOF_INT 4
#define JIM_VERSION 81
#define TCL_LIBRARY "."
#define TCL_PLATFORM_OS "wazhilom"
#define TCL_PLATFORM_PLATFORM "none"
#define TCL_PLATFORM_PATH_SEPARATOR ":"
