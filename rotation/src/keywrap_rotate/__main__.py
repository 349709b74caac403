"""`python -m keywrap_rotate`, which is the command keywrap-rotate."""

import sys

from . import main

sys.exit(main())
