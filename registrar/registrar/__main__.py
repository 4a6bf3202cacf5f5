"""`python3 -m registrar COMMAND ..`."""

import io
import sys

from registrar.command import main

if __name__ == "__main__":
    # A terminal that has not some letter shows its number. (Where it was closed there is none.)
    if isinstance(sys.stdout, io.TextIOWrapper):
        sys.stdout.reconfigure(errors="backslashreplace")
    sys.exit(main(sys.argv[1:]))
