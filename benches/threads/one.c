/* One hart that does what each hart of apart.c does. */
#include "apart.c"
