# SPDX-License-Identifier: Apache-2.0
"""NumPy's manners of what holds voxels: comparisons with a number, and errors that name the call to use where NumPy would make an array."""
from __future__ import annotations

import operator
import re
from numbers import Number
from typing import Any, Callable, Iterable, NoReturn

import numpy as np

from .errors import DtypeError, RangeError

#: NumPy's comparisons: the operator with the grid on the left, and that with the grid on the right.
COMPARISONS = {
    np.equal: (operator.eq, operator.eq), np.not_equal: (operator.ne, operator.ne), np.less: (operator.lt, operator.gt),
    np.less_equal: (operator.le, operator.ge), np.greater: (operator.gt, operator.lt), np.greater_equal: (operator.ge, operator.le),
}  # fmt: skip
#: What does the work of functions of NumPy without an array.
CALLS = {
    "sum": "labels() has the values with their counts", "max": "labels().values[-1]", "min": "labels().values[0]", "unique": "labels()",
    "count_nonzero": "count", "bincount": "labels()", "argwhere": "active_coordinates()", "nonzero": "active_coordinates()",
    "where": "where(grid == 3)", "isin": "select(values)", "array_equal": "== of grids", "shape": "image.shape",
}  # fmt: skip


class Voxels:
    """What holds voxels. A comparison with a number makes a mask of the active voxels for which it is true. With a list or
    an array it is a DtypeError: `select` takes several values."""

    #: How a dense array is made, for texts of errors.
    _dense = "grid[...], the values of its bounding box, or grid.to_array(bounds)[0]"
    __hash__ = None  # type: ignore[assignment]

    def _mask(self, is_chosen: "Callable[[np.ndarray], np.ndarray]") -> Any:
        """Returns the mask of the active voxels whose values, integers or booleans of any shape, are chosen."""
        raise NotImplementedError

    def _compared(self, compare: Callable, other: Any) -> Any:
        if isinstance(other, (Number, np.bool_)) or isinstance(other, np.ndarray) and other.ndim == 0:
            return self._mask(lambda values: compare(values, other))
        if isinstance(other, (np.ndarray, list, tuple, set, range)):
            raise DtypeError(f"a grid is compared with a number; select([3, 200]) finds several values, and an array is compared with {self._dense}")
        return NotImplemented

    def __eq__(self, other: object) -> Any:
        return self._compared(operator.eq, other)

    def __ne__(self, other: object) -> Any:
        found = self._compared(operator.ne, other)
        same = self.__eq__(other) if found is NotImplemented else NotImplemented
        return found if same is NotImplemented else not same

    def __lt__(self, other: object) -> Any:
        return self._compared(operator.lt, other)

    def __le__(self, other: object) -> Any:
        return self._compared(operator.le, other)

    def __gt__(self, other: object) -> Any:
        return self._compared(operator.gt, other)

    def __ge__(self, other: object) -> Any:
        return self._compared(operator.ge, other)

    def __array_ufunc__(self, function: Any, method: str, *inputs: Any, **options: Any) -> Any:
        """Compares with a number. Raises DtypeError, which names the call to use, for any other function."""
        if function in COMPARISONS and method == "__call__" and not options:
            first, second = inputs
            is_left = first is self
            return COMPARISONS[function][not is_left](self, second if is_left else first)
        return self._refuse(function.__name__)

    def __array_function__(self, function: Any, _types: Iterable[type], _inputs: tuple, _options: dict) -> Any:
        """Raises DtypeError, which names the call to use."""
        return self._refuse(function.__name__)

    def _refuse(self, name: str) -> NoReturn:
        name = {"amax": "max", "amin": "min"}.get(name, name)
        call = CALLS.get(name, "")
        instead = f" Without an array: {call}." if hasattr(type(self), re.split(r"\W", call)[0]) or call[:2] == "==" else ""
        raise DtypeError(f"numpy.{name} takes arrays: {self._dense}.{instead}")


def no_truth(_mask: object) -> NoReturn:
    """Raises RangeError, as the truth of an array with several elements does."""
    raise RangeError("the truth of a mask is ambiguous: use mask.count, or == of two grids")
