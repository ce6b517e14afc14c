"""Runs the front where its folder is given to Python: the folder above it has the package."""

import os
import sys

if sys.version_info < (3, 11):
    sys.exit(
        "roskubel: Python 3.11 is wanted, and this is %d.%d; ROSKUBEL_PYTHON names another one" % sys.version_info[:2]
    )
sys.path[0] = os.path.dirname(os.path.dirname(os.path.abspath(__file__)))


def open_streams() -> None:
    """A standard stream that was closed is the null device, so that no image gets its number."""
    for number, name, mode in ((0, "stdin", "r"), (1, "stdout", "w"), (2, "stderr", "w")):
        try:
            os.fstat(number)
        except OSError:
            os.set_inheritable(os.open(os.devnull, os.O_RDWR), True)
        if getattr(sys, name) is None:
            setattr(sys, name, open(number, mode, encoding="utf-8", closefd=False))


open_streams()

from front.main import main  # noqa: E402

sys.exit(main(sys.argv[1:]))
