/* castribba_salvage.h: salvage.h by the name that it has where it is installed (host/install-to). */
#include "salvage.h"
