# SPDX-License-Identifier: Apache-2.0
"""Reading a grid in several threads, each through a view of its own."""
from __future__ import annotations

import os
from concurrent.futures import ThreadPoolExecutor
from ctypes import byref
from queue import SimpleQueue
from typing import Callable, List, Sequence, TypeVar

import numpy as np

from .errors import DtypeError, RangeError
from .library import LIBRARY, Held, ViewHandle

T = TypeVar("T")


def processors(threads: "int | None" = None) -> int:
    """Returns a number of threads or, without one, the number of processors that the process may use. Raises DtypeError if it is no
    integer, and RangeError below 1."""
    if threads is None:
        return len(os.sched_getaffinity(0))
    if isinstance(threads, bool) or not isinstance(threads, (int, np.integer)):
        raise DtypeError(f"a number of threads is an integer, not {threads!r}")
    if threads < 1:
        raise RangeError(f"the number of threads is at least 1, not {threads}")
    return int(threads)


def in_threads(held: Held, work: "Callable[[Held, T], None]", parts: "Sequence[T]", threads: int) -> None:
    """Calls `work` with each part and a handle that reads the grid, in so many threads. Every other call on the grid waits for the end.

    The grid is in views meanwhile, and is given back to its handle whatever happens. No cell is copied.
    """
    if threads == 1 or len(parts) == 1:
        for part in parts:
            work(held, part)
        return
    free: "SimpleQueue[Held]" = SimpleQueue()

    def run(part: T) -> None:
        view = free.get()
        try:
            work(view, part)
        finally:
            free.put(view)

    with held.lock:
        is_view = isinstance(held.handle, ViewHandle)
        first = held if is_view else Held(ViewHandle)
        views: List[Held] = []
        if not is_view:
            LIBRARY.vdb_view_new(byref(held.handle), byref(first.handle))
        try:
            for _ in range(min(threads, len(parts))):
                views.append(Held(ViewHandle))
                first.call_with("share", views[-1])
                free.put(views[-1])
            with ThreadPoolExecutor(len(views)) as pool:
                for _ in pool.map(run, parts):
                    pass
        finally:
            for view in views:
                LIBRARY.vdb_view_free(byref(view.handle))
            if not is_view:
                LIBRARY.vdb_view_take(byref(first.handle), byref(held.handle))
