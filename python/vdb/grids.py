# SPDX-License-Identifier: Apache-2.0
"""Grids by name: what the scenes of the engine and those of files share."""
from __future__ import annotations

from typing import Dict, Generic, Iterator, Mapping, MutableMapping, Type, TypeVar

from .errors import DtypeError, LimitError, MissingError
from .forms import MAX_GRIDS, check_name
from .reading import Readable

G = TypeVar("G", bound=Readable)


class Grids(MutableMapping[str, G], Generic[G]):
    """Grids by name, at most 64, in the order of their names.

    A name is a letter a to z, then up to 15 of a to z, 0 to 9 and _. The scene holds the grids themselves and not copies. Setting a grid
    raises TextError or DtypeError for another name, DtypeError for anything but a grid of the scene's class, and LimitError for a 65th
    grid. The scene stays as it was then. A name that the scene doesn't have is a MissingError, which is a KeyError.

    Examples
    --------
    >>> scene = vdb.Scene({"organ": vdb.Grid("bool")})
    >>> scene["margin"] = vdb.Grid("i32")
    >>> list(scene), vdb.loads(scene.to_bytes()) == scene
    (['margin', 'organ'], True)
    """

    _form: Type[G]

    def __init__(self, grids: "Mapping[str, G] | None" = None) -> None:
        self._grids: Dict[str, G] = {}
        self.update(grids or {})

    def __getitem__(self, name: str) -> G:
        if name not in self._grids:
            raise MissingError(f"the scene has no grid {name!r}; it has {', '.join(self) or 'none'}")
        return self._grids[name]

    def __setitem__(self, name: str, grid: G) -> None:
        check_name(name)
        if not isinstance(grid, self._form):
            raise DtypeError(f"{name} is set to {type(grid).__name__}, not to a Grid: use Grid.from_array")
        if name not in self._grids and len(self._grids) == MAX_GRIDS:
            raise LimitError(f"a scene has at most {MAX_GRIDS} grids, and {name} would be one more")
        self._grids[name] = grid

    def __delitem__(self, name: str) -> None:
        self[name]
        del self._grids[name]

    def __iter__(self) -> Iterator[str]:
        return iter(sorted(self._grids))

    def __len__(self) -> int:
        return len(self._grids)

    def __repr__(self) -> str:
        return f"Scene({{{', '.join(f'{name!r}: {grid!r}' for name, grid in self.items())}}})"
