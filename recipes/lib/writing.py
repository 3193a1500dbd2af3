"""Standard output, and how a recipe ends."""
from __future__ import annotations

import os
import sys
import typing

# The status where it is interrupted, as a shell has it.
INTERRUPTED = 130


class Unwritten(Exception):
    """Why nothing can be written to standard output."""


def put(text: str) -> None:
    """Writes to standard output, whose reader may have enough of it; Unwritten where it can't be written to."""
    if sys.stdout is None:
        raise Unwritten("standard output is closed")
    try:
        sys.stdout.write(text)
        sys.stdout.flush()
    except OSError as error:
        # (Python would try once more at its end)
        os.dup2(os.open(os.devnull, os.O_WRONLY), 1)
        if not isinstance(error, BrokenPipeError):
            raise Unwritten(f"standard output: {error.strerror}")


def end_with(main: typing.Callable[[], int]) -> typing.NoReturn:
    """Ends with the status that the function gives."""
    try:
        sys.exit(main())
    except KeyboardInterrupt:
        sys.exit(INTERRUPTED)
    except Unwritten as wrong:
        sys.exit(str(wrong))
