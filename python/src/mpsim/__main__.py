"""Runs the command `mpplan` as `python3 -m mpsim`."""

import sys

from .command import main

sys.exit(main())
