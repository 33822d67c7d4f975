"""DataFrames as traces: those of pandas, and those of other libraries that have the interchange protocol."""

import sys
from typing import Any

from marple.columns import EXACT, FLOATS, Column, cell_of, float_cell, missing_cell
from marple.interchange import UNITS, interchange_columns


def is_frame(thing: object) -> bool:
    """Whether it is a DataFrame that can be read."""
    return _is_pandas(thing) or hasattr(thing, "__dataframe__")


def _is_pandas(thing: object) -> bool:
    pandas = sys.modules.get("pandas")
    return pandas is not None and isinstance(thing, pandas.DataFrame)


def columns_of(frame: Any) -> list[Column]:
    """The columns of a DataFrame. In pandas the levels of the index that have a name are columns too."""
    if not _is_pandas(frame):
        return interchange_columns(frame)
    index = frame.index
    levels = [(name, index.get_level_values(at).to_series()) for at, name in enumerate(index.names) if name is not None]
    columns = [(name, frame.iloc[:, at]) for at, name in enumerate(frame.columns)]
    return [_column(name if isinstance(name, str) else str(name), series) for name, series in (*levels, *columns)]


def _column(name: str, series: Any) -> Column:
    exact = _exact(series.dtype)
    return Column(name, str(series.dtype), _cells(name, series, exact), series.iloc.__getitem__, exact)


def _exact(dtype: Any) -> int:
    """From which number on values of this type, or of its categories, may be floats that aren't exact."""
    own = dtype.categories.dtype if type(dtype).__name__ == "CategoricalDtype" else getattr(dtype, "subtype", dtype)
    return FLOATS.get(getattr(own, "itemsize", 8), EXACT) if getattr(own, "kind", "O") == "f" else EXACT


def _kind(series: Any) -> str:
    """The letter of a numpy type: i and u are whole numbers, f is floats. None of these for other types."""
    return getattr(series.dtype, "kind", "O") if type(series.dtype).__module__.startswith("numpy") else "O"


def _cells(name: str, series: Any, exact: int) -> list[Any]:
    kind = _kind(series)
    if kind in "iu":
        return list(series.tolist())
    if kind == "f":
        missing = missing_cell(name)
        return [float_cell(value, exact) if value == value else missing for value in series.tolist()]
    if getattr(series.dtype, "tz", None) is not None:
        times = since_1970(series.dt.tz_convert("UTC").dt.tz_localize(None).to_numpy())
        return _filled(times, series, missing_cell(name))
    if type(series.dtype).__name__ == "CategoricalDtype":
        cells = [cell_of(name, value, exact) for value in series.cat.categories]
        missing = missing_cell(name)
        return [cells[code] if code >= 0 else missing for code in series.cat.codes.tolist()]
    numpy = type(series.dtype).__module__.startswith("numpy")
    values = series if numpy else series.to_numpy(dtype=object, na_value=None)
    return [value if type(value) is str else cell_of(name, value, exact) for value in values.tolist()]


def since_1970(times: Any) -> list[int]:
    """The nanoseconds since 1970 of numpy's times in any unit, which in 64 bits may be too many."""
    unit = UNITS[times.dtype.str[4]]
    return [time * unit for time in map(int, times.view("int64").tolist())]


def _filled(values: list[Any], series: Any, missing: str) -> list[Any]:
    """The values, with this cell where the series has none."""
    if not series.hasnans:
        return values
    return [missing if lacks else value for value, lacks in zip(values, series.isna().tolist())]
