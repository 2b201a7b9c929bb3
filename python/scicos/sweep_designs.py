"""The designs of a sweep: a diagram's file, a `Diagram`, or one for each choice of the parameters of a
function in Python, drawn before the first run."""
from __future__ import annotations

import contextlib
import hashlib
import inspect
import itertools
import os
import sys
import traceback
import types
from collections.abc import Callable, Iterator, Mapping, Sequence
from dataclasses import dataclass
from typing import Any, Union

from scicos import files
from scicos.columns import Columns, near, of_design
from scicos.errors import DataError, ReadError, ScicosError, WordsError
from scicos.inputs import Sensor, sensors_of
from scicos.measures import Measure, Wanted, wanted_of
from scicos.program import Design, Program, Refused, explain

Make = Callable[..., Design]
Source = Union[str, "os.PathLike[str]", Design, Make]
Parameters = Union[None, Mapping[str, Any], Sequence[Mapping[str, Any]]]
USUAL = ("make", "design", "diagram")  # how the function may be called


@dataclass(frozen=True)
class Origin:
    """What a sweep is made of: the path of a diagram's file, or a function, and what it is called in
    sentences."""

    called: str
    path: str | None = None
    make: Make | None = None


@dataclass(frozen=True)
class Drawn:
    """A design of a sweep: its parameters, its file, its sensors, and what is asked of it; of one that is
    refused the sentence alone."""

    parameters: Mapping[str, Any]
    path: str
    sensors: tuple[Sensor, ...] = ()
    wanted: tuple[Wanted, ...] = ()
    refusal: str = ""


def origin_of(source: Source) -> Origin:
    """What a design is that was given; a file of Python is run."""
    if isinstance(source, (str, os.PathLike)):
        path, _, name = os.fspath(source).partition(".py:")
        if name or path.endswith(".py"):
            return python_file(path + ".py" * bool(name), name)
        return Origin(os.path.basename(path), path=path)
    if hasattr(source, "to_json"):
        return Origin(str(getattr(source, "name", "the diagram")), make=always(source))
    if callable(source):
        return Origin(str(getattr(source, "__name__", "the function")), make=source)
    raise WordsError(f"a design is a path, a Diagram, or a function that gives one, and not {source!r}")


def always(design: Any) -> Make:
    """A function without parameters that gives a design."""
    def make() -> Any:
        return design
    return make


def place_of(error: BaseException, path: str) -> str:
    """The line of a file at which an error arose, as `design.py:12`, or the file's name."""
    lines = [frame.lineno for frame in traceback.extract_tb(error.__traceback__) if frame.filename == path]
    return os.path.basename(path) + (f":{lines[-1]}" if lines else "")


def python_file(path: str, name: str) -> Origin:
    """The function of a file of Python that draws the design; or the one diagram that the file draws."""
    module = types.ModuleType("design")
    module.__file__ = path
    try:
        with open(path, "rb") as file:
            code = compile(file.read(), path, "exec", dont_inherit=True)
        with beside(path), contextlib.redirect_stdout(sys.stderr):
            exec(code, module.__dict__)
    except (SyntaxError, ValueError) as error:
        line = f", line {error.lineno}" if isinstance(error, SyntaxError) and error.lineno else ""
        raise DataError(f"{path}{line}, is no Python: {getattr(error, 'msg', None) or error}") from None
    except ScicosError:
        raise
    except OSError as error:
        raise ReadError(f"{error.filename or path} can't be read: {error.strerror}") from None
    except (Exception, SystemExit) as error:
        raise DataError(f"{place_of(error, path)}: {type(error).__name__}: {error}") from None
    return chosen(module, path, name)


@contextlib.contextmanager
def beside(path: str) -> Iterator[None]:
    """Within this, modules in the folder of a file are found, as when Python runs the file."""
    folder = os.path.dirname(os.path.abspath(path))
    sys.path.insert(0, folder)
    try:
        yield
    finally:
        with contextlib.suppress(ValueError):
            sys.path.remove(folder)


def gives_diagram(function: types.FunctionType) -> bool:
    """Whether a function says that it gives a Diagram."""
    gives = function.__annotations__.get("return")
    return str(getattr(gives, "__name__", gives)) == "Diagram"


def chosen(module: types.ModuleType, path: str, name: str) -> Origin:
    """The function of a name, or the only one that can be meant."""
    file = os.path.basename(path)
    own = {key: value for key, value in vars(module).items() if inspect.isfunction(value)
           and value.__module__ == module.__name__ and not key.startswith("_")}
    if name:
        if name not in own:
            raise WordsError(f"{file} has no function {name!r}{near(name, own)}")
        return Origin(f"{file}:{name}", make=own[name])
    giving = {key: value for key, value in own.items() if gives_diagram(value)}
    usual = {key: value for key, value in own.items() if key in USUAL}
    drawn = list({id(value): value for value in vars(module).values()
                  if hasattr(value, "to_json") and not isinstance(value, type)}.values())
    for some in (giving, usual, {} if drawn else own):
        if len(some) == 1:
            key, make = next(iter(some.items()))
            return Origin(f"{file}:{key}", make=make)
    if len(drawn) == 1 and not giving and not usual:
        return Origin(file, make=always(drawn[0]))
    if own:
        raise WordsError(f"{file} has the functions {', '.join(own)}: name the one that gives the diagram, "
                         f"as {file}:{next(iter(own))}")
    raise WordsError(f"{file} has no function that gives a Diagram")


def choices(parameters: Parameters) -> list[dict[str, Any]]:
    """Each choice of parameters: of a mapping all combinations of its values, the last name changing
    first."""
    if parameters is None:
        return [{}]
    if not isinstance(parameters, Mapping):
        return [dict(choice) for choice in parameters]
    values = []
    for name, given in parameters.items():
        many = isinstance(given, (list, tuple, range, set, frozenset)) or hasattr(given, "tolist")
        several = given if many else [given]
        values.append([value.item() if hasattr(value, "item") else value for value in several])
        if not values[-1]:
            raise WordsError(f"the parameter {name!r} has no values")
    return [dict(zip(parameters, choice)) for choice in itertools.product(*values)]


def check_parameters(origin: Origin, chosen: Sequence[Mapping[str, Any]]) -> None:
    """Refuses parameters that the function doesn't take, and a lack of those that it needs."""
    names = list(dict.fromkeys(name for choice in chosen for name in choice))
    if origin.make is None:
        if names:
            raise WordsError(f"{origin.called} is a diagram's file, which has no parameters: {names[0]!r} "
                             "needs a function in Python")
        return
    taken = inspect.signature(origin.make).parameters
    known = [name for name, taken_ in taken.items()
             if taken_.kind in (taken_.POSITIONAL_OR_KEYWORD, taken_.KEYWORD_ONLY)]
    for name in names:
        if name not in known and not any(each.kind == each.VAR_KEYWORD for each in taken.values()):
            raise WordsError(f"{origin.called} takes no parameter "
                             f"{name!r}{near(name, known) if known else ': it takes none at all'}")
    for name, each in taken.items():
        needed = each.default is each.empty and each.kind not in (each.VAR_KEYWORD, each.VAR_POSITIONAL)
        if needed and any(name not in choice for choice in chosen):
            raise WordsError(f"{origin.called} needs values for its parameter {name!r}")


def text_of(origin: Origin, parameters: Mapping[str, Any]) -> tuple[bytes, str]:
    """The text of a design and nothing, or of one that can't be drawn nothing and the sentence."""
    if origin.make is None:
        try:
            with open(str(origin.path), "rb") as file:
                return file.read(), ""
        except OSError as error:
            raise ReadError(f"{origin.path} can't be read: {error.strerror}") from None
    try:
        with contextlib.redirect_stdout(sys.stderr):
            design = origin.make(**parameters)
            if hasattr(design, "to_json"):
                return design.to_json().encode(), ""
    except ScicosError as error:
        return b"", str(error)
    except Exception as error:
        code = getattr(origin.make, "__code__", None)
        place = place_of(error, code.co_filename if code else origin.called)
        return b"", f"{place}: {type(error).__name__}: {error}"
    raise WordsError(f"{origin.called} gives {type(design).__name__} in place of a Diagram")


def told(parameters: Mapping[str, Any]) -> str:
    """Parameters as a part of a sentence, as `with gain=3: `."""
    shown = ", ".join(f"{name}={value}" for name, value in parameters.items())
    return f"with {shown}: " if parameters else ""


def drawn(origin: Origin, parameters: Mapping[str, Any], measures: Sequence[Measure], program: Program,
          path: str) -> tuple[Drawn, str]:
    """A design, written to the path where it isn't a file already, and the checksum of its text."""
    text, refusal = text_of(origin, parameters)
    if refusal:
        return Drawn(parameters, "", refusal=refusal), hashlib.sha256(refusal.encode()).hexdigest()
    checksum = hashlib.sha256(text).hexdigest()
    if origin.path is None:
        with files.told(path), open(path, "wb") as file:
            file.write(text)
    place = origin.path or path
    try:
        columns = of_design(place, program)
    except Refused as refused:
        explain(refused, place)
        return Drawn(parameters, place, refusal=str(refused)), checksum
    return Drawn(parameters, place, tuple(sensors_of(columns)),
                 wanted(measures, columns, parameters)), checksum


def wanted(measures: Sequence[Measure], columns: Columns,
           parameters: Mapping[str, Any]) -> tuple[Wanted, ...]:
    """What is asked of a design; a signal that it lacks is told with its parameters."""
    try:
        return wanted_of(measures, columns)
    except DataError as error:
        raise DataError(told(parameters) + str(error)) from None
