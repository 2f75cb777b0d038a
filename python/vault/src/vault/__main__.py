"""`python3 -m vault` is the program `vault`."""

import sys

from vault.cli.program import main

sys.exit(main())
