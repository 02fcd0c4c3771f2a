"""The command `tigerline`. Importing this module makes Ctrl-C end the process, before the imports that take some time."""

import signal
import sys

# If Ctrl-C is ignored, it stays ignored.
if signal.getsignal(signal.SIGINT) is signal.default_int_handler:
    signal.signal(signal.SIGINT, signal.SIG_DFL)

from .commands import main

__all__ = ["main"]

if __name__ == "__main__":
    sys.exit(main())
