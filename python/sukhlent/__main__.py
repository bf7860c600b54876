"""`python -m sukhlent` is the command."""

import sys

from .command import main

sys.exit(main())
