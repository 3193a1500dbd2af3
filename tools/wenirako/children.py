"""Programs that are run as children, and that end with this one."""
from __future__ import annotations

import contextlib
import os
import signal
import subprocess
import tempfile
import threading
import time
from types import CodeType, FrameType
from typing import Any, Callable, Iterator, NamedTuple, Optional, Sequence

from .statuses import INTERRUPTED, TERMINATED

# How often the caller hears that a child still runs, and how long a child may take to end when it is told to, in seconds.
TICK, GRACE = 0.2, 3.0
# How much of what a child said is told.
SAID_MOST = 1000

# The children that run. Who starts one has the lock, so that none is missed by who ends all.
_running: set[subprocess.Popen] = set()
_lock = threading.Lock()


class Ended(BaseException):
    """A signal told this program to end, with the status that it ends with."""

    def __init__(self, status: int):
        super().__init__(status)
        self.status = status


class Signals:
    """What signals have told this program. The first says the status. Each raises `Ended` in the main thread, once that may be."""

    def __init__(self) -> None:
        self.status: Optional[int] = None
        self.are_held = False

    def heed(self, number: int, frame: Optional[FrameType]) -> None:
        if self.status is None:
            self.status = INTERRUPTED if number == signal.SIGINT else TERMINATED
        # (a later one raises too, since what the first raised may have been swallowed; but none does once the work is left)
        if not self.are_held and is_within(frame, done_whole.__code__):
            self.check()

    def check(self) -> None:
        if self.status is not None:
            raise Ended(self.status)

    @contextlib.contextmanager
    def held(self) -> Iterator[None]:
        """What is done whole: a signal is heeded before it or behind it."""
        if threading.current_thread() is not threading.main_thread():
            yield
            return
        self.are_held = True
        try:
            yield
        finally:
            self.are_held = False
        self.check()


_signals = Signals()


class Done(NamedTuple):
    """How a child ended: its status, which is negative where a signal ended it, and what it wrote."""

    status: int
    out: bytes
    err: bytes

    def said(self, name: str) -> str:
        """How the program of that name ended, and the last that it said of it."""
        why = self.err.decode(errors="replace").strip()
        how = f"was ended by {name_of(-self.status)}" if self.status < 0 else f"ended with the status {self.status}"
        return f"{name} {how}" + (f": {why[-SAID_MOST:]}" if why else "")


def name_of(number: int) -> str:
    """A signal by its name, or by its number where it has none."""
    try:
        return signal.Signals(number).name
    except ValueError:
        return f"the signal {number}"


def heed_signals() -> None:
    """From here on SIGINT, SIGTERM and SIGHUP are heeded."""
    _signals.status = None
    for number in (signal.SIGINT, signal.SIGTERM, signal.SIGHUP):
        if signal.getsignal(number) is not signal.SIG_IGN:
            signal.signal(number, _signals.heed)


def done_whole(main: Callable[[], int]) -> int:
    """The status of work. While this runs signals raise `Ended`."""
    status = main()
    # (what a signal raised may have been swallowed)
    _signals.check()
    return status


def is_within(frame: Optional[FrameType], code: CodeType) -> bool:
    """Whether what runs in a frame was called by this code, or by what that called."""
    while frame is not None and frame.f_code is not code:
        frame = frame.f_back
    return frame is not None


def ended_by(main: Callable[[], int]) -> int:
    """The status of a program that is told to end by signals, and whose children end with it."""
    heed_signals()
    try:
        return done_whole(main)
    except Ended as ended:
        return ended.status
    finally:
        end_all()


def nothing() -> None:
    """What is called where there is nothing to do."""


def run(words: Sequence[str], given: Optional[bytes] = None, tick: Callable[[], None] = nothing, meanwhile: Callable[[], None] = nothing, **how: Any) -> Done:
    """Runs a program to its end, and calls `tick` now and then. Where this is left by an exception, the child has ended.

    `meanwhile` does some work beside it, once. The child is a session of its own, so that what it starts ends with it;
    with `start_new_session=False` it keeps the terminal.
    """
    with tempfile.TemporaryFile() as script, contextlib.ExitStack() as behind:
        # (what is left of an input that is piped isn't written any more once `communicate` has timed out)
        script.write(given or b"")
        script.seek(0)
        how = {"start_new_session": True, "stdin": script, "stdout": subprocess.PIPE, "stderr": subprocess.PIPE, **how}
        with _signals.held():
            child = started(words, how)
            behind.callback(forgotten, child)
        meanwhile()
        done = heard(child, tick)
    return done


def heard(child: subprocess.Popen, tick: Callable[[], None]) -> Done:
    """What a child has written, once it has ended."""
    while True:
        # (what a signal raised may have been swallowed: by a destructor, say, in which nothing can be raised)
        _signals.check()
        try:
            out, err = child.communicate(timeout=TICK)
            return Done(child.returncode, out or b"", err or b"")
        except subprocess.TimeoutExpired:
            tick()


def started(words: Sequence[str], how: dict[str, Any]) -> subprocess.Popen:
    """A child that is known to `end_all` as soon as it runs; none where this program was told to end."""
    with _lock:
        _signals.check()
        child = subprocess.Popen([str(it) for it in words], **how)
        _running.add(child)
    return child


def forgotten(child: subprocess.Popen) -> None:
    """Ends a child, and forgets it."""
    end(child)
    with _lock:
        _running.discard(child)


def end(child: subprocess.Popen) -> None:
    """Ends a child, where it still runs, with all that it started."""
    if child.poll() is not None:
        return
    for number in (signal.SIGTERM, signal.SIGKILL):
        tell(child, number)
        try:
            child.wait(GRACE)
            return
        except subprocess.TimeoutExpired:
            continue


def tell(child: subprocess.Popen, number: int) -> None:
    try:
        if os.getpgid(child.pid) == child.pid:
            os.killpg(child.pid, number)
        else:
            child.send_signal(number)
    except ProcessLookupError:
        pass


def end_all() -> None:
    """Ends the children of every thread."""
    with _lock:
        children = list(_running)
    for child in children:
        tell(child, signal.SIGTERM)
    until = time.monotonic() + GRACE
    while time.monotonic() < until and any(it.poll() is None for it in children):
        time.sleep(0.02)
    for child in children:
        end(child)
