"""What owns a handle of C. A lock in it lets threads take turns. A thread may take it twice: a signal's handler makes its calls before or after C runs,
never within, since C calls no Python. Only a `ChipDevice`'s calls do, and it refuses a call from within one."""

from __future__ import annotations

import ctypes
import os
import threading
import weakref
from typing import Any, Callable, ClassVar, NoReturn, Optional, TypeVar

_OwnerType = TypeVar("_OwnerType", bound="Owner")
_OWNERS: weakref.WeakValueDictionary[int, Owner] = weakref.WeakValueDictionary()


def _make_new_locks() -> None:
    """In the child of a fork no thread is left that would give a lock back."""
    for owner in list(_OWNERS.values()):
        owner._lock = threading.RLock()


os.register_at_fork(after_in_child=_make_new_locks)


class Owner:
    """The only owner of a handle: it closes the handle when it goes, so there is no copy of it."""

    _handle: Optional[ctypes.Structure] = None
    _close_handle: ClassVar[Callable[[Any], object]]

    def __init__(self, handle: ctypes.Structure) -> None:
        self._lock = threading.RLock()
        self._handle = handle
        _OWNERS[id(self)] = self

    def close(self) -> None:
        """Gives the handle up, and the device with its last one. A second close does nothing."""
        if self._handle is not None:
            with self._lock:
                self._give_up()

    def _give_up(self) -> None:
        type(self)._close_handle(self._handle)

    def __enter__(self: _OwnerType) -> _OwnerType:
        return self

    def __exit__(self, *fault: object) -> None:
        self.close()

    def __del__(self) -> None:
        if self._handle is not None:
            self._give_up()

    def __reduce_ex__(self, protocol: object) -> NoReturn:
        raise TypeError(f"a {type(self).__name__} can't be copied or pickled: it owns a handle of the library")
