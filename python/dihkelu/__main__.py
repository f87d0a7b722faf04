"""python3 -m dihkelu: the command."""
import sys

from .command import main

if __name__ == "__main__":
    sys.exit(main())
