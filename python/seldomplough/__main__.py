"""Runs the command line: `python3 -m seldomplough`."""

import sys

from seldomplough.cli import main

if __name__ == '__main__':
    sys.exit(main())
