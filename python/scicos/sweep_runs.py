"""One run of a sweep, as a worker does it: it calls the program, reads the trace while it is written, and
keeps what is asked for alone."""
from __future__ import annotations

import contextlib
import hashlib
import os
import resource
import tempfile
import time
from collections.abc import Iterator
from dataclasses import dataclass, replace
from typing import IO, Any

from scicos import files, flat, stops
from scicos.errors import DataError, MissingError, ReadError, ScicosError, WriteError
from scicos.inputs import Sensor, input_file, listed
from scicos.measures import Wanted, Watch
from scicos.program import Program, ProgramError, Refused, Stream, explain, find

REFUSED, FAILED, ENDED = "refused", "failed", "ended"  # the last where no other run can do better


@dataclass(frozen=True)
class Given:
    """Inputs of a sweep: their name in the table, the path or the values, and the checksum of these."""

    name: str
    data: Any
    checksum: str


@dataclass(frozen=True)
class Sent:
    """A file that goes to another machine, by its name there and its bytes."""

    name: str
    text: bytes


@dataclass(frozen=True)
class Task:
    """What a worker has to run: the design and the inputs are paths, or files that are sent to it."""

    number: int
    program: str | None
    design: str | Sent
    inputs: Any
    sensors: tuple[Sensor, ...]
    until: int
    events: int
    wanted: tuple[Wanted, ...]
    keep: str | None = None


@dataclass(frozen=True)
class Result:
    """How a run ended: as a trace tells it, `refused`, or `failed` with the status of what was missing or
    full.

    `why` is a sentence where it stopped, was refused or failed, `seconds` the processor time that it took.
    """

    number: int
    end: str
    values: tuple[int | None, ...] = ()
    why: str = ""
    status: int = 0
    seconds: float = 0.0


def given_inputs(inputs: Any) -> list[Given]:
    """The inputs of a sweep, each by its name: a list of paths and values, or one of these alone."""
    if inputs is None:
        return [Given("", None, "")]
    several = inputs if isinstance(inputs, (list, tuple)) else [inputs]
    return [given(each, number) for number, each in enumerate(several, 1)]


def given(data: Any, number: int) -> Given:
    """Inputs by their path, or as values by their number."""
    if data is None:
        return Given("", None, "")
    if isinstance(data, (str, os.PathLike)):
        path = os.fspath(data)
        try:
            with open(path, "rb") as file:
                return Given(path, path, hashlib.sha256(file.read()).hexdigest())
        except OSError as error:
            raise ReadError(f"the input file {path} can't be read: {error.strerror}") from None
    values = {part.key: list(part.values) for part in listed(data)[1]}
    return Given(f"inputs {number}", values, hashlib.sha256(repr(values).encode()).hexdigest())


def seconds() -> float:
    """The processor time that this thread has taken, and what it called."""
    called = resource.getrusage(resource.RUSAGE_CHILDREN)
    return time.thread_time() + called.ru_utime + called.ru_stime


_stopped = False  # whether this worker is to do no more
_running: Stream | None = None  # the run of the program that is under way in this worker


def stop() -> None:
    """Ends the run that is under way in this process, and lets no other begin."""
    global _stopped
    _stopped = True
    if _running:
        _running.process.kill()


def work(task: Task) -> Result:
    """Does a run; what is wrong with it is told in its result."""
    if _stopped:
        return Result(task.number, FAILED, why="the sweep was ended", status=130)
    begun = seconds()
    try:
        result = ran(task)
    except (Refused, DataError, ReadError) as error:
        result = Result(task.number, REFUSED, why=str(error), status=error.status)
    except (MissingError, WriteError) as error:
        result = Result(task.number, ENDED, why=str(error), status=error.status)
    except ScicosError as error:
        result = Result(task.number, FAILED, why=str(error), status=error.status)
    except OSError as error:
        result = Result(task.number, ENDED, why=f"{error.filename or 'a file'}: {error.strerror or error}",
                        status=4)
    return replace(result, seconds=seconds() - begun)


@contextlib.contextmanager
def unpacked(task: Task) -> Iterator[Task]:
    """The task with the paths of files that were sent; what is wrong is told by their names alone."""
    if not isinstance(task.design, Sent) and not isinstance(task.inputs, Sent):
        yield task
        return
    with tempfile.TemporaryDirectory(prefix="scicos-") as work:
        paths = []
        for number, sent in enumerate((task.design, task.inputs)):
            if isinstance(sent, Sent):
                folder = os.path.join(work, str(number))
                os.mkdir(folder)
                paths.append(os.path.join(folder, os.path.basename(sent.name)))
                with files.told(paths[-1]), open(paths[-1], "wb") as file:
                    file.write(sent.text)
            else:
                paths.append(sent)
        try:
            yield replace(task, design=paths[0], inputs=paths[1])
        except (Refused, DataError) as error:
            text = str(error)
            for number in range(2):
                text = text.replace(os.path.join(work, str(number), ""), "")
            raise DataError(text) from None


def ran(task: Task) -> Result:
    """Does a run, or raises what is wrong with it."""
    with unpacked(task) as local:
        design, watch = str(local.design), Watch(task.wanted)
        program = Program(task.program) if task.program else find()
        with input_file(local.inputs, local.sensors, design) as inputs:
            try:
                with kept(task) as file, program.stream("simulate", design, inputs, task.until,
                                                        task.events) as stream:
                    read(stream, watch, file)
            except Refused as refused:
                explain(refused, design)
                raise
            kind, block = watch.end or ("", None)
            why = "" if block is None else stopped(stops.Stop(kind, block, watch.date, watch.reaction),
                                                   local, inputs, program)
    return Result(task.number, kind, tuple(watch.values), why)


def stopped(stop: stops.Stop, task: Task, inputs: str, program: Program) -> str:
    """The sentence for a run that stopped, with the inputs of the block where these can be found out."""
    design = str(task.design)
    try:
        return stops.explained(stop, design, inputs, task.until, program)
    except (ScicosError, OSError, ValueError):
        return stops.brief(stop, flat.read(design))


def read(stream: Stream, watch: Watch, file: IO[bytes] | None) -> None:
    """Reads a trace to its end, which it has to have."""
    global _running
    _running = stream
    if _stopped:
        stop()
    for piece in stream.pieces():
        watch.take(piece)
        if file:
            file.write(piece)
    stream.check()
    if watch.end is None:
        raise ProgramError("the program's trace has no last line", 70)


@contextlib.contextmanager
def kept(task: Task) -> Iterator[IO[bytes] | None]:
    """The file for the trace, by the number of the run, where traces are kept."""
    if task.keep is None:
        yield None
        return
    with files.written(os.path.join(task.keep, f"{task.number}.txt")) as file:
        yield file
