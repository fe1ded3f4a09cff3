/* Harts that share the code alone, for twenty times as long as those of apart.c. */
#define PASSES 8000
#include "apart.c"
