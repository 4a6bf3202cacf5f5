"""How a command ends by a signal: what it began is taken back, and the program that it called ends with it."""

from __future__ import annotations

import contextlib
import ctypes
import os
import signal
import sys
import threading
from typing import Callable, Iterator, Optional

#: The signals that end a process and that it can heed. What can not be heeded ends the program by `tied`, and leaves a
#: part file.
HEEDED = (
    signal.SIGINT, signal.SIGTERM, signal.SIGHUP, signal.SIGQUIT, signal.SIGALRM, signal.SIGUSR1, signal.SIGUSR2,
    signal.SIGXCPU, signal.SIGVTALRM, signal.SIGPROF,
)  # fmt: skip

#: `PR_SET_PDEATHSIG` of Linux: the signal that a process gets when its parent ends.
SIGNAL_AT_PARENT_END = 1


class Ended(BaseException):
    """A signal ends the command. It is no `Exception`, so that nothing on the way takes it for a fault."""

    def __init__(self, number: int) -> None:
        super().__init__(number)
        self.number = number


#: The signal that came, if one did.
_came: Optional[int] = None


def heed() -> None:
    """Raises `Ended` where a signal came.

    Python passes over what a handler raises in some places, as while it starts a process.
    """
    if _came is not None:
        raise Ended(_came)


@contextlib.contextmanager
def heeded() -> Iterator[None]:
    """Turns the first of these signals into `Ended`, and passes the others over while what was begun is taken back.

    A signal that was passed over before stays so, as SIGHUP under `nohup`.
    """
    global _came  # pylint: disable=global-statement,invalid-name
    if threading.current_thread() is not threading.main_thread():
        yield
        return
    before = {one: signal.getsignal(one) for one in HEEDED}

    def end(number: int, _: object) -> None:
        global _came  # pylint: disable=global-statement,invalid-name
        _came = number
        for one in before:
            signal.signal(one, signal.SIG_IGN)
        raise Ended(number)

    try:
        for one, handler in before.items():
            if handler not in (signal.SIG_IGN, None):
                signal.signal(one, end)
        yield
    finally:
        _came = None
        for one, handler in before.items():
            if handler is not None:
                signal.signal(one, handler)


def _library() -> Optional[ctypes.CDLL]:
    """The C library, on a system where a process can ask to end with its parent."""
    if not sys.platform.startswith("linux"):
        return None
    try:
        library = ctypes.CDLL(None)
        return library if hasattr(library, "prctl") else None
    except OSError:
        return None


LIBRARY = _library()


def tied() -> Optional[Callable[[], None]]:
    """What a process that is started does first, so that it ends when this one ends; nothing off Linux."""
    if LIBRARY is None:
        return None
    parent = os.getpid()
    control = LIBRARY.prctl

    def tie() -> None:
        control(SIGNAL_AT_PARENT_END, int(signal.SIGKILL), 0, 0, 0)
        # The parent may have ended before it was said.
        if os.getppid() != parent:
            os._exit(1)

    return tie
