/* Where a module can't go on: ends the process. */
#include "navtex-live.h"
#include <stdlib.h>

void nx_live_trapped(void) { abort(); }
