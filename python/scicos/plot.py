"""Pictures of a run by matplotlib: chosen signals over the ticks, one over the other, in units."""
from __future__ import annotations

import os
from collections.abc import Mapping
from typing import TYPE_CHECKING, Any, Union

from scicos import files
from scicos.columns import Column
from scicos.errors import DataError, WordsError, needed

if TYPE_CHECKING:
    from scicos.runs import Run

Unit = Union[str, tuple[float, str]]
SUFFIXES = ("png", "svg", "pdf", "jpg", "ps", "eps")


def unit_of(given: Unit | None, name: str) -> tuple[float, str]:
    """The scale and the unit of a signal: what a value of 1 stands for, as (0.1, "rpm"); a unit alone has the
    scale 1."""
    if given is None or isinstance(given, str):
        return 1.0, given or ""
    try:
        scale, unit = given
        return float(scale), str(unit)
    except (TypeError, ValueError):
        told = f"the unit of {name!r} is a scale and a word, as (0.1, 'rpm'), and not {given!r}"
        raise WordsError(told) from None


def lines(run: Run, column: Column, until: int | None) -> tuple[list[int], list[int]]:
    """The ticks at which a signal changes what it holds, with the values from there on, up to the end of the
    picture."""
    end = run.trace.dates[-1]
    last = end + max(1, end // 20) if until is None else until
    ticks, values = [0], [run.at(column.name, 0)]
    for tick, value in run.values(column.name):
        if 0 < tick <= last:
            if tick == ticks[-1]:
                values[-1] = value
            elif value != values[-1]:
                ticks.append(tick)
                values.append(value)
    return [*ticks, max(last, ticks[-1])], [*values, values[-1]]


def axes_of(figure: Any, units: list[str]) -> dict[str, Any]:
    """An axis for each unit: the first at the left, the others at the right, one beside the other."""
    first = figure.add_subplot()
    axes = {units[0]: first}
    for at, unit in enumerate(units[1:]):
        axes[unit] = first.twinx()
        axes[unit].spines["right"].set_position(("outward", 55 * at))
    for unit, axis in axes.items():
        axis.set_ylabel(unit)
    return axes


def plot(run: Run, *signals: str, units: Mapping[str, Unit] | None = None, tick: Unit = (1, "ticks"),
         until: int | None = None, title: str = "", path: str | os.PathLike[str] | None = None) -> Any:
    """Draws signals of a run (all that were asked for, where none is named) and gives matplotlib's figure.

    `units` tells by a signal's name what a value of 1 stands for, and its unit; signals of one unit share an
    axis. `tick` tells it of a tick. With `path` the picture is written there, by the name's ending as PNG,
    SVG or PDF.

        >>> run.plot("speed", "target", units={"speed": (0.1, "rpm"), "target": (0.1, "rpm")},
        ...          tick=(0.001, "s"), path="speed.svg")  # doctest: +SKIP
    """
    figure = load_figure()(figsize=(9, 4.5), layout="constrained")
    if path is not None:
        check_path(os.fspath(path))
    chosen = [column for name in signals for column in run.catalogue.named(name)] or run.columns
    if not chosen:
        raise DataError("there is no signal to plot: the run has none")
    known = {column: unit for name, unit in (units or {}).items() for column in run.catalogue.named(name)}
    scales = {column: unit_of(known.get(column), column.name) for column in chosen}
    step, unit = unit_of(tick, "tick")
    axes = axes_of(figure, list(dict.fromkeys(unit for _, unit in scales.values())))
    for number, (column, (scale, named)) in enumerate(scales.items()):
        ticks, values = lines(run, run.column(column.name), until)
        axes[named].step([step * at for at in ticks], [scale * value for value in values], where="post",
                         color=f"C{number % 10}",
                         label=column.name + (f" [{named}]" if named else ""))
    finish(figure, unit, title)
    if path is not None:
        save(figure, os.fspath(path))
    return figure


def finish(figure: Any, unit: str, title: str) -> None:
    """Writes what stands round the lines: the unit of the ticks, the names of the signals above, and the
    title."""
    first = figure.axes[0]
    first.set_xlabel(unit)
    first.grid(alpha=0.3)
    drawn = [line for axis in figure.axes for line in axis.lines]
    first.legend(drawn, [line.get_label() for line in drawn], loc="lower center", bbox_to_anchor=(0.5, 1.0),
                 ncol=min(4, len(drawn)), frameon=False, fontsize="small")
    if title:
        figure.suptitle(title)


def load_figure() -> Any:
    """matplotlib's figures, or a sentence where it isn't installed."""
    try:
        from matplotlib.figure import Figure  # type: ignore[import]
    except ImportError:
        raise needed("matplotlib", "a plot") from None
    return Figure


def check_path(path: str) -> str:
    """The form of a picture, by the ending of its name."""
    suffix = os.path.splitext(path)[1].lstrip(".").lower()
    if suffix not in SUFFIXES:
        raise WordsError(f"the ending of {path!r} is none of {', '.join(SUFFIXES)}")
    return suffix


def save(figure: Any, path: str) -> None:
    """Writes a picture."""
    suffix = check_path(path)
    import matplotlib  # type: ignore[import]
    with files.written(path) as file, matplotlib.rc_context({"svg.hashsalt": "scicos"}):
        figure.savefig(file, format=suffix, metadata={"Date": None} if suffix == "svg" else None)
