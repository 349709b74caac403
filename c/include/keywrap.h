/* keywrap.h of the C library, in this repository: the one of dist/, which says without this name that
 * it is of portable C. What `make install` installs does not: packaging/package.py. */
#define KEYWRAP_LIBRARY
#include "../../dist/keywrap.h"
#undef KEYWRAP_LIBRARY
