"""The diagram: what is drawn within `with Diagram(..)`, and its file."""
from __future__ import annotations

import os
from collections.abc import Iterator
from pathlib import Path
from types import TracebackType
from typing import Union

from .files import written
from .integers import Mode, mode_of
from .levels import Block, Level, check_elements, enter, enter_default, leave, leave_default
from .origin import wrong, wrong_at
from .program import Program, design_file, find
from .signals import Event, EventUnion, LaterEvent, LaterSignal, Signal, each_once


class Diagram:
    """A diagram, drawn within its `with`: blocks get their numbers in the order in which they are made.

    `mode` says what blocks do on overflow, where they don't say it themselves: "wrap", "saturate" or "stop".

    Example:
        with Diagram("counter") as design:
            tick = clock(5)
            count = counter(10, on=tick)
        design.write("counter.json")
    """

    def __init__(self, name: str, mode: Union[str, Mode] = "wrap") -> None:
        self.name = name
        self.mode = mode_of(mode)
        self.top = Level(self, None)
        self.finished = False
        self.blocks = 0
        self.tags = 0
        self.columns: dict[int, Block] = {}
        self.given_tags: dict[object, tuple[int, Union[Signal, Event], str]] = {}
        self.tag_numbers: dict[str, int] = {}
        self.taken_tags: list[tuple[str, Block]] = []
        self.waiting: list[Union[LaterSignal, LaterEvent]] = []
        self.outputs: list[Union[Signal, Event]] = []
        self._text: str | None = None

    def __enter__(self) -> Diagram:
        if self.finished:
            raise wrong(f"The diagram `{self.name}` is finished. Begin another.")
        enter(self.top)
        enter_default(None)
        return self

    def __exit__(self, kind: type[BaseException] | None, value: BaseException | None,
                 trace: TracebackType | None) -> None:
        leave_default()
        leave()
        if kind is None:
            self.finish()

    def __repr__(self) -> str:
        return f"<Diagram {self.name}: {self.blocks} blocks{'' if self.finished else ', open'}>"

    def all_blocks(self) -> Iterator[Block]:
        """All blocks and tags, level by level, in the order of the file."""
        return _blocks_of(self.top)

    def owns_signal(self, signal: Signal, what: str) -> None:
        """A DesignError where the signal is of another diagram."""
        if isinstance(signal, LaterSignal):
            level: Level | None = signal.level
        else:
            level = signal.block.level if signal.block else None
        if level is not None and level.diagram is not self:
            raise wrong(f"{what} takes `{signal.name}` ({signal.line}), which is a signal of another diagram,"
                        f" `{level.diagram.name}`; this one is `{self.name}`.")

    def owns_event(self, event: Event, what: str) -> None:
        """A DesignError where the event is of another diagram."""
        if isinstance(event, EventUnion):
            for part in event.parts:
                self.owns_event(part, what)
            return
        if isinstance(event, LaterEvent):
            level: Level | None = event.level
        else:
            level = event.block.level if event.block else None
        if level is not None and level.diagram is not self:
            raise wrong(f"{what} takes `{event.name}` ({event.line}), which is an event of another diagram,"
                        f" `{level.diagram.name}`; this one is `{self.name}`.")

    def finish(self) -> None:
        """Look at what was left open, and write the text of the file; the end of the `with` does this."""
        from .outputs import mark_outputs
        from .subsystems import check_tags
        from .wiring import Wiring
        from .write import text_of
        for waiting in self.waiting:
            if isinstance(waiting, LaterSignal):
                waiting.resolved()
            else:
                waiting.sources()
        for block in self.all_blocks():
            _look_at_end(block)
        check_tags(self.taken_tags)
        mark_outputs(self)
        check_elements(self.all_blocks())
        self._text = text_of(Wiring(self.top).drawn())
        self.finished = True

    def to_json(self) -> str:
        """The text of the diagram's file; the same source gives the same bytes."""
        if self._text is None:
            raise wrong(f"The diagram `{self.name}` is still open. Write, check or run it after its `with`.")
        return self._text

    def write(self, path: Union[str, os.PathLike[str]]) -> Path:
        """Write the file, whole or not at all. Example: `design.write("diagram.json")`."""
        text = self.to_json()
        with written(path) as file:
            file.write(text.encode())
        return Path(path)

    def check(self, program: Union[str, os.PathLike[str], Program, None] = None) -> str:
        """What `scicos check` says of the diagram, as "ok 4 2 5 0"; a refusal is raised as `Refused`."""
        with design_file(self) as path:
            return find(program).text("check", path).strip()


def _blocks_of(level: Level) -> Iterator[Block]:
    for thing in level.objects:
        if isinstance(thing, Level):
            yield from _blocks_of(thing)
        else:
            yield thing


def _look_at_end(block: Block) -> None:
    for port, source in enumerate(block.inputs, 1):
        if source is None:
            which = f"input {port}" if len(block.inputs) > 1 else "the input"
            raise wrong_at(block.line, f"{which} of `{block.name}` is open. Feed it: {block.name}.feed(..).")
    for port, events in enumerate(block.activations, 1):
        fires = block.kind in ("EVTDLY_c", "EVTVARDLY") and block.firing[0] >= 0
        if not each_once(events) and not fires:
            several = f"activation input {port} of " if len(block.activations) > 1 else ""
            raise wrong_at(block.line, f"nothing activates {several}`{block.name}`. Say on=, draw within"
                                       f" `with on(..):`, or call {block.name}.activated_by(..).")

