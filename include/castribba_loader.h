/* castribba_loader.h: loader.h by the name that it has where it is installed (host/install-to). */
#include "loader.h"
