"""A handle of the library, with which one call at a time is made."""

from __future__ import annotations

import functools
import os
import threading
from typing import Any, Callable, NoReturn, TypeVar, cast

from .errors import Busy, Forked, PocketError
from .library import Handle, library

_Call = TypeVar("_Call", bound=Callable[..., Any])
_Own = TypeVar("_Own", bound="Held")


def alone(call: _Call) -> _Call:
    """A call that is made alone with its handle: another thread waits, a call within it (of a signal handler, a finalizer) is refused, and
    so is a call of another process than the one that opened the handle. Both locks are taken and given back by `with` alone, so that an
    interrupt at any place leaves them free."""

    @functools.wraps(call)
    def guarded(self: Held, *words: Any, **named: Any) -> Any:
        if self._process != os.getpid():
            raise Forked("it was opened by another process, of which this one is a copy")
        with self._lock:
            if self._inside.locked():
                raise Busy("another call of it is under way in this thread")
            with self._inside:
                return call(self, *words, **named)

    return cast(_Call, guarded)


class Held:
    """A handle that is closed at the end of a `with`, or with its object. One call at a time is made with it: another thread waits."""

    def __init__(self) -> None:
        if hasattr(self, "_handle"):
            raise PocketError("it was opened already")
        self._close = library.pocket_close
        self._process = os.getpid()
        self._lock, self._inside = threading.RLock(), threading.Lock()
        self._handle = Handle()

    @alone
    def close(self) -> None:
        """Gives back its memory. A second time does nothing."""
        self._close(self._handle)

    def __enter__(self: _Own) -> _Own:
        return self

    def __exit__(self, *_: object) -> None:
        self.close()

    def __del__(self) -> None:
        if hasattr(self, "_handle") and self._process == os.getpid():
            self._close(self._handle)

    def __copy__(self, *_: Any) -> NoReturn:
        raise TypeError(f"a {type(self).__name__} is a handle of memory of the library, and can't be copied")

    __deepcopy__ = __reduce_ex__ = __copy__
