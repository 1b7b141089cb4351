"""Runs a program and cleans up after it, however it ends."""

from __future__ import annotations

import contextlib
import os
import signal
import subprocess
import threading
from typing import TYPE_CHECKING

from . import programs
from .errors import ProgramError, ReportError, TimedOut, error_of
from .files import in_memory

if TYPE_CHECKING:
    from collections.abc import Collection, Iterable, Iterator, Sequence
    from types import TracebackType
    from typing import IO, Any

    from .inputs import Input

# The signals that end a run, and that this process may turn into exceptions. Windows lacks some.
SIGNALS = [getattr(signal, name) for name in ("SIGINT", "SIGTERM", "SIGHUP") if hasattr(signal, name)]


@contextlib.contextmanager
def undisturbed() -> Iterator[None]:
    """Defers Ctrl-C, and other signals that this process handles, to the end of the block. In it a process is started: an exception in the midst of
    that would lose the process."""
    came: list[int] = []
    before: dict[int, Any] = {}
    if threading.current_thread() is threading.main_thread():
        before = {number: how for number in SIGNALS if callable(how := signal.getsignal(number))}
    try:
        for number in before:
            signal.signal(number, lambda number, _: came.append(number))
        yield
    finally:
        for number, how in before.items():
            signal.signal(number, how)
        for number in came:
            before[number](number, None)


class Running:
    """Runs a program within a block; its output is `stream`. At the end of the block it has ended, by itself or killed, even if an exception or
    Ctrl-C ends the block or not everything was read. Leaving the block raises the program's error unless its status is one of `fine`.

    `timeout` (seconds, int or float, or None) counts from the start of the program to its end."""

    _process: subprocess.Popen[bytes]
    _timer: threading.Timer | None

    def __init__(self, name: str, words: Iterable[str], inputs: Sequence[Input], fine: Collection[int] = (0,), timeout: float | None = None) -> None:
        self.name, self.inputs, self.fine = name, inputs, fine
        self._timer, self._is_begun = None, False
        self._is_late = self._is_killed = False
        file = programs.find(name)
        # stderr goes to memory, where it can't fill a pipe that nobody reads.
        self._errors = in_memory("mpsim-errors")
        try:
            with undisturbed():
                self._process = subprocess.Popen(
                    [file, *words],
                    stdout=subprocess.PIPE,
                    stderr=self._errors,
                    pass_fds=[handle for item in inputs for handle in item.handles],
                    env=programs.surroundings(),
                )
                self._is_begun = True
            if timeout is not None:
                self._timer = threading.Timer(timeout, self._late)
                self._timer.daemon = True
                self._timer.start()
        except OSError as error:
            self._clear()
            raise ProgramError(f"{file} can't be started: {error.strerror}") from error
        except BaseException:
            self._clear()
            raise

    @property
    def stream(self) -> IO[bytes]:
        """The output of the program."""
        assert self._process.stdout is not None
        return self._process.stdout

    def __enter__(self) -> Running:
        return self

    def __exit__(self, kind: type[BaseException] | None, value: BaseException | None, trace: TracebackType | None) -> None:
        message = ""
        try:
            self._settle(kind)
            message = os.pread(self._errors, os.fstat(self._errors).st_size, 0).decode(errors="surrogateescape")
        finally:
            self._clear()
        if kind is None or issubclass(kind, ReportError):
            self._judge(message)

    def _settle(self, kind: type[BaseException] | None) -> None:
        """Waits for the program if it is about to end, else kills it."""
        if kind is None:
            if self.stream.read(1):
                # Nobody needs the rest.
                self._kill()
            self._process.wait()
        elif issubclass(kind, ReportError):
            # A program that dies leaves its report cut off. Wait a moment for its end, so as to report how it died.
            with contextlib.suppress(subprocess.TimeoutExpired):
                self._process.wait(1)

    def _judge(self, message: str) -> None:
        """Raises the error that the program's end implies."""
        status = self._process.returncode
        if self._is_late and status == -signal.SIGKILL:
            raise TimedOut(f"{self.name} was ended: its timeout has passed", message, status) from None
        if self._is_killed:
            return
        if status == -signal.SIGINT:
            # At a terminal Ctrl-C ends both, and the program's end may be noticed first.
            raise KeyboardInterrupt
        if status not in self.fine:
            raise error_of(self.name, status, message, self.inputs) from None

    def _late(self) -> None:
        self._is_late = True
        with contextlib.suppress(ProcessLookupError):
            self._process.kill()

    def _kill(self) -> None:
        self._is_killed = True
        self._process.kill()

    def _clear(self) -> None:
        """Ends the program if it still runs, and closes everything opened for it."""
        if self._timer is not None:
            self._timer.cancel()
        if self._is_begun:
            if self._process.poll() is None:
                self._kill()
            self._process.wait()
            self.stream.close()
        if self._timer is not None and self._timer.ident is not None:
            self._timer.join()
        os.close(self._errors)
