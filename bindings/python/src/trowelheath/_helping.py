"""Threads that help with dear products: each makes blocks of them by a pass of its own, while the store is open."""

from __future__ import annotations

import ctypes
import threading
from contextlib import suppress
from typing import Any

from ._library import PassHandle

__all__ = ["Helping"]

# A thread that finds nothing to do sleeps for so many seconds, and each further time twice as long, up to the last.
_SHORTEST = 0.0005
_LONGEST = 0.008

# No matrix has this number.
_NO_MATRIX = 2**32 - 1


class Helping:
    """The threads that help in a store, one for each handle from `first` on.

    It refers to the memory of the handles and to nothing else of the store, so that a store without a name ends.
    """

    def __init__(self, library: ctypes.CDLL, handles: ctypes.Array[PassHandle], first: int, goes_on: bool) -> None:
        """Starts the threads. `goes_on` says whether the store is a chain. `RuntimeError` where one does not start."""
        self._over = threading.Event()
        self._threads = [
            threading.Thread(
                target=_help, args=(library, handles, number, goes_on, self._over), name=f"helper {number}", daemon=True
            )
            for number in range(first, len(handles))
        ]
        try:
            for thread in self._threads:
                thread.start()
        except BaseException:
            self.stop()
            self.join()
            raise

    def __len__(self) -> int:
        return len(self._threads)

    def stop(self) -> None:
        """Has each thread end its pass and itself, once it has made the blocks that it has begun. Waits for none."""
        self._over.set()

    def join(self) -> None:
        """Waits until the threads have ended, but for one that calls this."""
        for thread in self._threads:
            # One that was not started, and the one that runs here, are not waited for.
            with suppress(RuntimeError):
                thread.join()


def _help(
    library: Any, handles: ctypes.Array[PassHandle], number: int, goes_on: bool, over: threading.Event
) -> None:
    """Makes blocks by the pass of this number until all is over, and then ends the pass. No other thread uses it."""
    handle = ctypes.addressof(handles) + number * ctypes.sizeof(PassHandle)
    made = ctypes.c_uint32()
    nap = _SHORTEST
    while not over.wait(0 if made.value else nap):
        library.trb_help(handle, made)
        if made.value:
            nap = _SHORTEST
        else:
            nap = min(2 * nap, _LONGEST)
            if goes_on:
                _follow(library, handle)
    library.trb_free(handle)


def _follow(library: Any, handle: int) -> None:
    """Lets the pass learn what is new and go to the latest generation, by a read that is refused."""
    library.trb_matrix_size(handle, ctypes.c_uint64(), ctypes.c_uint64(), _NO_MATRIX)
