"""Calls that a helper thread makes, so that the main thread can be interrupted while it waits for them.

Python runs the handlers of signals in the main thread, between its steps: not while that is in a call of the
library. So a call of the main thread that may take long is made by a helper. Where a handler raises, as that of
Ctrl-C does, the main thread goes on and leaves the call to the helper, which ends it and its pass's use.
"""

from __future__ import annotations

import _thread
import threading
from typing import Any, Callable, List, Optional

__all__ = ["Task", "can_wait", "forget_helpers", "wait_for"]


# After so many seconds of waiting the main thread looks for signals.
_LOOK = 0.05


class Task:
    """A call that a helper makes, and what it needs to live so long."""

    def __init__(self, work: Callable[[], int], finish: Callable[[], None], hold: Any) -> None:
        """The task to do `work` and then, whoever waits for it, `finish`. `hold` is kept until then."""
        self._work = work
        self._finish = finish
        self._hold = hold
        self._done = threading.Lock()
        self._done.acquire()
        self.status = 0
        self.fault: Optional[BaseException] = None
        # Whether the call has returned, and whether nobody waits for that any more.
        self.over = False
        self.left = False

    def run(self, before_done: Callable[[], None]) -> None:
        """Does the work, in the thread of a helper."""
        try:
            self.status = self._work()
        except BaseException as fault:
            self.fault = fault
        finish = self._finish
        # What it holds may hold the task.
        del self._hold, self._work, self._finish
        self.over = True
        before_done()
        self._done.release()
        finish()

    def wait(self) -> int:
        """Waits for the work, and returns its status or raises its fault. A signal may end the wait."""
        # A signal that comes just before the thread waits does not end the wait: so look for one now and then.
        while not self._done.acquire(timeout=_LOOK):
            pass
        fault, self.fault = self.fault, None
        if fault is not None:
            try:
                raise fault
            finally:
                # Its traceback has this frame: without the name there is no cycle.
                del fault
        return self.status


class _Helper:
    """A thread that does one task after another. It does not hold up the end of the process."""

    def __init__(self) -> None:
        self._task: Optional[Task] = None
        self._has_task = threading.Lock()
        self._has_task.acquire()
        # The start of a `threading.Thread` takes many steps, and a signal may come between two of them.
        _thread.start_new_thread(self._serve, ())

    def begin(self, task: Task) -> None:
        """Has the task done."""
        self._task = task
        self._has_task.release()

    def _serve(self) -> None:
        while True:
            self._has_task.acquire()
            task, self._task = self._task, None
            if task is not None:
                task.run(self._rest)
            del task

    def _rest(self) -> None:
        _idle.append(self)


# Helpers without a task. The main thread alone takes them.
_idle: List[_Helper] = []


def can_wait(lock: Any) -> bool:
    """Whether this is the main thread and does not have the lock, so that a helper may take it for this thread."""
    if threading.get_ident() != threading.main_thread().ident:
        return False
    try:
        return not lock._is_owned()
    except AttributeError:
        return False


def wait_for(task: Task) -> int:
    """Has a helper do the task, and waits for it as `Task.wait`. Where a signal ends the wait, the task is left."""
    try:
        try:
            helper = _idle.pop()
        except IndexError:
            helper = _Helper()
        helper.begin(task)
        return task.wait()
    except BaseException:
        task.left = True
        raise


def forget_helpers() -> None:
    """In the child of a fork: the helpers are threads of the parent."""
    _idle.clear()
