"""Says that long work lives: a bar on a terminal, one line a minute elsewhere, and nothing where it is told to be quiet."""
from __future__ import annotations

import sys
import time
from typing import Callable, Optional, TextIO

WIDTH, A_MINUTE, REDRAWN = 24, 60.0, 0.1
# A bar is drawn only where a stage takes longer than this, in seconds.
UNSEEN = 0.7


class Progress:
    """What is done and left of a stage."""

    def __init__(self, name: str, is_quiet: bool = False, stream: Optional[TextIO] = None, clock: Callable[[], float] = time.monotonic):
        self.name, self.is_quiet, self.clock = name, is_quiet, clock
        self.stream = stream if stream is not None else sys.stderr
        self.is_terminal = self.stream.isatty()
        self.what, self.done, self.total = "", 0, 0
        self.began = self.told = clock()
        self.is_drawn = False

    def begin(self, what: str, total: int = 0) -> None:
        """A stage begins, of so many parts; 0 where that isn't known."""
        self.end()
        self.what, self.done, self.total = what, 0, total
        self.began = self.told = self.clock()

    def step(self, count: int = 1) -> None:
        self.done += count
        self.tick()

    def tick(self) -> None:
        """Called now and then: tells what is due."""
        if self.is_quiet or not self.what:
            return
        now = self.clock()
        if self.is_terminal:
            if now - self.began > UNSEEN and now - self.told > REDRAWN:
                self.told, self.is_drawn = now, True
                self.stream.write(f"\r{self.bar(now)}\x1b[K")
                self.stream.flush()
        elif now - self.told >= A_MINUTE:
            self.told = now
            self.stream.write(f"{self.name}: {self.what}: {self.counted(now)}\n")
            self.stream.flush()

    def end(self) -> None:
        """The stage is over: the bar goes."""
        if self.is_drawn:
            self.stream.write("\r\x1b[K")
            self.stream.flush()
        self.is_drawn, self.what = False, ""

    def bar(self, now: float) -> str:
        full = WIDTH * self.done // self.total if self.total else 0
        drawn = f"[{'#' * full}{'.' * (WIDTH - full)}] " if self.total else ""
        return f"{drawn}{self.what}: {self.counted(now)}"

    def counted(self, now: float) -> str:
        """How much is done, since when, and how long the rest may take."""
        passed = now - self.began
        if not self.total:
            return f"since {written(passed)}"
        left = f", about {written(passed * (self.total - self.done) / self.done)} left" if self.done else ""
        return f"{self.done} of {self.total} since {written(passed)}{left}"


def written(seconds: float) -> str:
    """A duration, in words."""
    whole = round(seconds)
    return f"{whole} s" if whole < 60 else f"{whole // 60} min {whole % 60} s"
