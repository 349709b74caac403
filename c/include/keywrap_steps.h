/* keywrap_steps.h of the C library, in this repository. */
#include "keywrap.h"

#include "../../dist/keywrap_steps.h"
