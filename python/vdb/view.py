# SPDX-License-Identifier: Apache-2.0
"""A view of a grid, for threads that read."""
from __future__ import annotations

import threading
from ctypes import byref

from .engine import Stored
from .errors import DtypeError
from .forms import Metadata
from .grid import Grid
from .library import LIBRARY, Held, ViewHandle

__all__ = ["View"]


class View(Stored):
    """A grid as it was when the view was made. Threads read it at the same time without waiting for each other.

    It needs memory for a copy of the grid. Its indices, arrays and reports are those of `Grid`.

    Examples
    --------
    >>> grid = vdb.Grid.from_array(np.ones((2, 2, 2), np.int32))
    >>> view = vdb.View(grid)
    >>> grid[0, 0, 0] = 9
    >>> view[0, 0, 0], view.count, view.copy()[0, 0, 0]
    (1, 8, 1)
    """

    def __init__(self, grid: Grid) -> None:
        held, self._first, self._own = Held(), Held(ViewHandle), threading.local()
        grid._held.call_with("copy", held)
        self._kind, self._metadata = grid._kind, Metadata(grid.metadata)
        LIBRARY.vdb_view_new(byref(held.handle), byref(self._first.handle))

    def __reduce__(self) -> tuple:
        raise DtypeError("a View isn't pickled, since it belongs to the threads of one process: pickle view.copy()")

    @property
    def _held(self) -> Held:  # type: ignore[override]
        """The thread's own handle of the view."""
        if not hasattr(self._own, "held"):
            held = Held(ViewHandle)
            self._first.call_with("share", held)
            self._own.held = held
        return self._own.held

    def _handle(self) -> Held:
        held = Held()
        self._held.call_with("copy", held)
        return held

    def copy(self) -> Grid:
        """Returns a grid with the cells of the view, and a copy of its metadata."""
        return Grid._of(self._handle(), self._metadata)
