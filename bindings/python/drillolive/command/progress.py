"""Tells on a terminal what takes long, and lets Ctrl-C end the command while the library works."""

from __future__ import annotations

import sys
import threading
import time
from collections.abc import Callable
from types import TracebackType
from typing import TextIO, TypeVar

Result = TypeVar("Result")

DELAY = 2.0  # after how many seconds a line appears
PERIOD = 0.5  # how many seconds pass before the line is written anew
CLEAR = "\r\x1b[K"  # the control characters that empty the line of a terminal


class Progress:
    """A line on a terminal that says what the command does, and since how many seconds.

    The line appears where the command still runs after the delay, and is removed at the end. Where the stream is no
    terminal nothing is written.
    """

    def __init__(self, stream: TextIO | None = None, delay: float = DELAY) -> None:
        self.stream = sys.stderr if stream is None else stream
        self.delay = delay
        self.label = "reading"
        self.ended = threading.Event()
        self.ticker: threading.Thread | None = None

    def __enter__(self) -> Progress:
        if self.stream.isatty():
            self.ticker = threading.Thread(target=self._tick, daemon=True)
            self.ticker.start()
        return self

    def __exit__(
        self, kind: type[BaseException] | None, error: BaseException | None, trace: TracebackType | None
    ) -> None:
        self.end()

    def do(self, label: str, work: Callable[[], Result]) -> Result:
        """Returns what the work returns, and raises what it raises, or KeyboardInterrupt while the work goes on."""
        self.label = label
        results: list[Result] = []
        errors: list[BaseException] = []

        def run() -> None:
            try:
                results.append(work())
            except BaseException as error:
                errors.append(error)

        # A call of the library hears no signal, so it runs beside the main thread, which does.
        thread = threading.Thread(target=run, daemon=True)
        thread.start()
        while thread.is_alive():
            thread.join(PERIOD)
        if errors:
            raise errors[0]
        return results[0]

    def say(self, label: str) -> None:
        """Tells what the command does from now on."""
        self.label = label

    def end(self) -> None:
        """Removes the line, and writes no other."""
        self.ended.set()
        if self.ticker is not None:
            self.ticker.join()
            self.ticker = None

    def _tick(self) -> None:
        began = time.monotonic()
        if self.ended.wait(self.delay):
            return
        while True:
            seconds = time.monotonic() - began
            self._write(f"{CLEAR}drillolive: {self.label}, {seconds:.0f} s")
            if self.ended.wait(min(PERIOD, self.delay)):
                self._write(CLEAR)
                return

    def _write(self, text: str) -> None:
        try:
            self.stream.write(text)
            self.stream.flush()
        except (OSError, ValueError):
            # The terminal has gone; the command goes on.
            self.ended.set()
