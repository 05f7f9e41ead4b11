/* The symbol that names the version of the archive: scripts/library puts it there. */
#include "stemline_calls.h"

const char STEMLINE_VERSION_SYMBOL[] = STEMLINE_VERSION;
