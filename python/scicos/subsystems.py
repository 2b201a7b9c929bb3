"""Subsystems: a Python function that is drawn as a superblock; and tags."""
from __future__ import annotations

import functools
import inspect
from collections.abc import Callable, Iterator, Mapping
from typing import Any, TypeVar, Union, cast

from .integers import IntType
from .levels import Block, Level, check_levels, current, enter, leave
from .making import checked_type, make
from .origin import here, wrong, wrong_at
from .signals import Event, Signal, Sink, checked_events

Result = TypeVar("Result")


def subsystem(function: Callable[..., Result]) -> Callable[..., Result]:
    """Draw the blocks that a function makes in a superblock of its own, each time that it is called.

    The superblock has the name of the variable that takes the result, or that of the keyword `name=`. What
    crosses its border, arguments, results, and what it uses of outside, gets ports.

    Example:
        @subsystem
        def halved(x):
            return x >> 1
    """
    signature = inspect.signature(function)
    takes_name = "name" in signature.parameters

    @functools.wraps(function)
    def drawn(*arguments: Any, **keywords: Any) -> Result:
        name = None if takes_name else keywords.pop("name", None)
        outer = current()
        origin = here(function.__name__)
        level = Level(outer.diagram, outer, origin, name)
        check_levels(level)
        outer.reserve(name, origin.line)
        bound = signature.bind(*arguments, **keywords)
        for parameter, value in bound.arguments.items():
            level.arguments.extend(carried_in(value, parameter))
        outer.objects.append(level)
        enter(level)
        try:
            result = function(*arguments, **keywords)
        finally:
            leave()
        level.results.extend(one for _, one in carried_in(result, ""))
        return result

    return drawn


def carried_in(value: object, name: str) -> Iterator[tuple[str, Union[Signal, Event]]]:
    """The signals and events in a value, also in lists, dicts and objects with fields, each with a name."""
    if isinstance(value, (Signal, Event)):
        yield name, value
    elif isinstance(value, Mapping):
        for key, part in value.items():
            yield from carried_in(part, f"{name}_{key}" if name else str(key))
    elif isinstance(value, (list, tuple)):
        for number, part in enumerate(value, 1):
            yield from carried_in(part, f"{name}_{number}" if name else "")
    elif type(value).__name__ == "Branches":
        yield from carried_in(tuple(cast(Any, value)), name)
    elif hasattr(value, "__dataclass_fields__"):
        for key in cast(Any, value).__dataclass_fields__:
            yield from carried_in(getattr(value, key), f"{name}_{key}" if name else str(key))


def give(tag: str, carried: Union[Signal, Event], *, everywhere: bool = False,
         name: str | None = None) -> Sink:
    """GOTO or CLKGOTO: give a signal or an event under a tag, in this level or everywhere.

    Example: `give("clock", tick, everywhere=True)`.
    """
    level = current()
    event = isinstance(carried, Event)
    if not isinstance(carried, (Signal, Event)):
        raise wrong(f"give takes a signal or an event, and {carried!r} is none.")
    key = (_tag(tag), event, None if everywhere else level)
    origin = here(f"give_{tag}")
    known = level.diagram.given_tags.get(key)
    if known is not None:
        raise wrong(f"The tag \"{tag}\" is given already, at {known[2]}. Take another tag.")
    number = level.diagram.tag_numbers.setdefault(tag, len(level.diagram.tag_numbers) + 1)
    ipar = [number, 3 if everywhere else 1]
    if event:
        made = make("CLKGOTO", f"give_{tag}", acts=[checked_events(carried, "give")], ipar=ipar,
                    name=name, origin=origin)
    else:
        level.diagram.owns_signal(cast(Signal, carried), "give")
        made = make("GOTO", f"give_{tag}", [cast(Signal, carried)], ipar=ipar, name=name, origin=origin)
    level.diagram.given_tags[key] = (number, carried, origin.line)
    return Sink(made)


def take(tag: str, type: IntType | None = None, *, rows: int = 1, columns: int = 1,
         name: str | None = None) -> Signal:
    """FROM: take the signal that is given under a tag; its type is needed where that is given later.

    Example: `drive_back = take("drive")`.
    """
    level = current()
    found = _given(level, _tag(tag), False)
    if found is None and type is None:
        raise wrong(f"The tag \"{tag}\" isn't given so far, so its type isn't known: take(\"{tag}\", int16).")
    if found is not None:
        shape = (found.type, found.size)
        if type is not None and type is not found.type:
            raise wrong(f"The tag \"{tag}\" is taken as {type.name}, and `{found.name}` ({found.line}), which"
                        f" is given, is {found.type.name}.")
    else:
        shape = (checked_type(type, "take"), (rows, columns))
    block = make("FROM", "taken", outputs=[shape], ipar=[_number(level, tag)], name=name)
    level.diagram.taken_tags.append((tag, block))
    return block.signals[0]


def take_event(tag: str, *, name: str | None = None) -> Event:
    """CLKFROM: take the event that is given under a tag. Example: `tick = take_event("clock")`."""
    level = current()
    block = make("CLKFROM", "taken", events=1, ipar=[_number(level, tag)], name=name)
    level.diagram.taken_tags.append((tag, block))
    return block.events[0]


def _tag(tag: object) -> str:
    if not isinstance(tag, str) or not tag:
        raise wrong(f"A tag is a name, as \"drive\", and {tag!r} is none.")
    return tag


def _number(level: Level, tag: str) -> int:
    return level.diagram.tag_numbers.setdefault(_tag(tag), len(level.diagram.tag_numbers) + 1)


def _given(level: Level, tag: str, event: bool) -> Any:
    given = level.diagram.given_tags
    found = given.get((tag, event, level)) or given.get((tag, event, None))
    return found[1] if found else None


def given_of(block: Block) -> Union[Signal, Event]:
    """What is given under the tag that a block takes."""
    tag = next(tag for tag, taken in block.level.diagram.taken_tags if taken is block)
    found: Union[Signal, Event] = _given(block.level, tag, block.kind == "CLKFROM")
    return found


def check_tags(taken: list[tuple[str, Block]]) -> None:
    """A DesignError where a tag is taken and never given, or given with another type or size."""
    for tag, block in taken:
        event = block.kind == "CLKFROM"
        found = _given(block.level, tag, event)
        if found is None:
            raise wrong_at(block.line, f"the tag \"{tag}\" is taken by `{block.name}`, and never given where"
                                       f" it can be: give(\"{tag}\", .., everywhere=True) is for all levels.")
        if event:
            continue
        taken_as, given_as = (f"{one.type.name}, {one.rows}x{one.columns}"
                              for one in (block.signals[0], found))
        if taken_as != given_as:
            raise wrong_at(block.line, f"the tag \"{tag}\" is taken as {taken_as}, and `{found.name}`"
                                       f" ({found.line}), which is given, is {given_as}.")
