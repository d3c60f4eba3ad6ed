"""Objects that are let go: what the names of one object share, and which numbers are to be freed.

A name is a `Matrix` or a `Vector` of Python. All names of an object, by whatever pass, share one `Life`. Where the
last name is gone so is the life, and the object's number waits in `LetGo.gone` until a pass of the store frees it.
Nothing else ends with a life, so a number that has a name is never freed so.
"""

from __future__ import annotations

import weakref
from collections import deque
from typing import Deque, Dict, List, Optional, Tuple

__all__ = ["LetGo", "Life"]

Shape = Tuple[int, ...]

# How many lives are known that were read into one object.
_MOST_FEEDS = 64


class Life:
    """What all names of one object share."""

    __slots__ = ("__weakref__", "entries", "feeds", "freed", "seen", "shape", "work")

    def __init__(self, shape: Optional[Shape], entries: int = 0, work: int = 0) -> None:
        """The life of an object of this shape, or of one whose shape is not known yet."""
        self.shape = shape
        self.freed = False
        # How many entries it may have, and how many all calls for it may visit, both as far as Python can reckon; and
        # how much of that work each pass had evaluated at its last read of the object.
        self.entries = entries
        self.work = work
        self.seen: Dict[int, int] = {}
        # The lives of what was read into it since it was read itself, with their work then.
        self.feeds: Dict[weakref.ref[Life], int] = {}

    def unseen(self, pass_: int) -> int:
        """How much of the work the pass of this number has not evaluated."""
        return self.work - self.seen.get(pass_, 0)

    def feed(self, life: Life, pass_: int) -> int:
        """The object of this life is read into this one, by this pass. How much work that adds."""
        feeds = self.feeds
        # To leave some out makes the work of later calls too large, and no call's too small.
        if len(feeds) < _MOST_FEEDS:
            feeds.update(life.feeds)
            feeds[weakref.ref(life)] = life.work
        return life.unseen(pass_)

    def evaluated(self, pass_: int, work: int) -> None:
        """A pass has read the object, when it had this work: what was read into it is evaluated too."""
        self.seen[pass_] = work
        feeds, self.feeds = self.feeds, {}
        for reference, upto in feeds.items():
            life = reference()
            if life is not None and life.seen.get(pass_, 0) < upto:
                life.seen[pass_] = upto


class _Watch(weakref.ref):  # type: ignore[type-arg]
    """A weak reference to a life, with the object that it is of."""

    __slots__ = ("number", "sort")
    sort: str
    number: int


class LetGo:
    """The objects of one store that were made by Python, as far as they are freed where they are let go.

    Each method is one step of a dict or a deque, so threads and finalizers may call them at any time.
    """

    def __init__(self) -> None:
        """No object is watched yet."""
        self._watches: Dict[Tuple[str, int], _Watch] = {}
        # What to free. A watch is put here by whatever thread drops the last name.
        self.gone: Deque[_Watch] = deque()

    def watch(self, sort: str, number: int, life: Life) -> None:
        """Has this object freed where its life is gone."""
        watch = _Watch(life, self.gone.append)
        watch.sort, watch.number = sort, number
        self._watches[sort, number] = watch

    def leave(self, sort: str, number: int) -> None:
        """Has this object not freed: it was, or it is kept."""
        self._watches.pop((sort, number), None)

    def is_watched(self, sort: str, number: int) -> bool:
        """Whether the object is freed where it is let go."""
        return (sort, number) in self._watches

    def lives(self) -> List[Tuple[Tuple[str, int], Life]]:
        """The lives of the objects that are watched and have a name."""
        found = ((key, watch()) for key, watch in list(self._watches.items()))
        return [(key, life) for key, life in found if life is not None]

    def next_gone(self) -> Optional[Tuple[str, int]]:
        """An object that is to be freed, which the caller does then. None where there is none."""
        while self.gone:
            try:
                watch = self.gone.popleft()
            except IndexError:
                return None
            if self._watches.pop((watch.sort, watch.number), None) is watch:
                return watch.sort, watch.number
        return None

    def put_back(self, sort: str, number: int) -> None:
        """An object that `next_gone` gave could not be freed now."""
        self.watch(sort, number, Life(None))
