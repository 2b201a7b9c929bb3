"""Superblocks cut out of diagrams: what the controller does is held against the run of the whole diagram, and what is refused."""
from __future__ import annotations

import dataclasses
import importlib.machinery
import importlib.util
import json
import random
from pathlib import Path
from types import ModuleType
from typing import Any

import pytest

import scicos as s
from cutting import clocked, columns, of_blocks, of_controller, reactions, wrapped
from scicos import cli, flat
from scicos import extract as cutting_out
from scicos.cut import Cut, superblock
from scicos.errors import DataError, ReadError
from scicos.extract import Extracted, extract
from scicos.flat_wiring import Wiring
from scicos.header import header
from scicos.program import Program, Refused, design_file
from scicos.reports import schedules, shapes
from scicos.runs import simulate

TOP = Path(__file__).resolve().parents[2]


def same(program: Program, text: str, name: str, inputs: list[list[int]], tmp_path: Path, until: int = 60) -> tuple[Extracted, int]:
    """Cuts a superblock out, and looks that it does what it did; gives it and how many reactions were compared."""
    path = tmp_path / "whole.json"
    path.write_text(text)
    made = extract(path, name, program)
    given = {at: values for at, values in enumerate(inputs, 1)}
    run = simulate(path, given, until=until, events=300, program=program)
    whole, last = reactions(program, text, inputs, until, 300)
    due = of_controller(whole, made.numbers)
    part, _ = reactions(program, made.text, columns(made, made.inputs(run), inputs), until, 300)
    here = of_blocks(part, made.numbers)
    cut_short = last.startswith("stop") or last in ("end events", "end halt")
    assert here[:len(due)] == due and (cut_short or len(here) == len(due))
    return made, len(due)


def maker() -> ModuleType:
    """The script that makes random diagrams of all kinds."""
    loader = importlib.machinery.SourceFileLoader("random_diagrams", str(TOP / "tools" / "random_diagrams"))
    spec = importlib.util.spec_from_loader("random_diagrams", loader)
    assert spec
    made = importlib.util.module_from_spec(spec)
    loader.exec_module(made)
    return made


@pytest.mark.parametrize("nested", [False, True])
def test_random_diagrams(nested: bool, program: Program, tmp_path: Path) -> None:
    """Of random diagrams some blocks are drawn into a superblock, or two: what can be cut out does what it did in the whole."""
    counts = {"same": 0, "with columns": 0, "taken along": 0, "refused": 0}
    random_diagrams = maker()
    for seed in range(1, 26):
        made, draw = random_diagrams.Maker(seed), random.Random(seed)
        diagram, inputs = made.whole(), made.inputs()
        for name in ("inner", "part")[not nested:]:
            count = sum(fields["obj"] == "Block" for fields in diagram["objs"])
            inside = sorted(draw.sample(range(1, count + 1), draw.randint(1, max(1, count - 1))))
            clocked(diagram, inside, draw)
            diagram = wrapped(diagram, inside, name)
        text = json.dumps(diagram)
        (tmp_path / "d.json").write_text(text)
        answer = program.ask("check", tmp_path / "d.json")
        assert answer.status in (0, 1), answer
        if answer.status:
            continue
        for item in list(flat.Flat(text).items()):
            if item.inner:
                try:
                    found, count = same(program, text, flat.place_text(item.place), inputs, tmp_path)
                except DataError:
                    counts["refused"] += 1
                    continue
                counts["same"] += count > 1
                counts["with columns"] += count > 1 and bool(found.columns.entries)
                counts["taken along"] += any(number not in [block.number for block in flat.Flat(text).blocks if block.place[0] == item.place[0]]
                                             for number in found.numbers)
    assert counts["same"] > 8 and counts["with columns"] > 4 and counts["taken along"] > 5


# ---- what stays as it was ----


@s.subsystem
def averager(values: s.Signal, tick: s.Event) -> s.Signal:
    with s.on(tick):
        held = s.hold(values)
        before = s.delay(held)
        total = held + before
    return total


def test_vectors_come_by_columns(program: Program, tmp_path: Path) -> None:
    """An input of 130 elements takes 130 columns, in order, behind the column of a sensor inside."""
    @s.subsystem
    def part(values: s.Signal, tick: s.Event) -> s.Signal:
        own = s.sensor(2, s.int8, on=tick)
        return s.extractor(s.hold(values, on=tick), 1, 64, 65, 129, 130) + s.mux(*[s.convert(own, s.int16)] * 5)

    with s.Diagram("vector") as design:
        tick = s.clock(3)
        count = s.counter(500, type=s.int16, on=tick)
        values = s.mux(s.mux(*[count + at for at in range(64)]), s.mux(*[count - at for at in range(64)]), s.mux(count, count + 7))
        part(values, tick, name="controller")
    made, compared = same(program, design.to_json(), "controller", [[], [5, -6, 7, 8, -128, 127, 0, 1, 2, 3, 4]], tmp_path, 30)
    assert compared == 12
    assert [entry.column for entry in made.columns.entries] == [1, *range(3, 132)]
    assert [entry.element for entry in made.columns.entries] == list(range(1, 131))
    assert made.columns.entries[129].sensor == "values 130" and made.columns.entries[129].signal == "values[130]"


def test_types_and_sizes_are_those_that_the_whole_infers(program: Program, tmp_path: Path) -> None:
    """Inside all types and sizes are open; the input's source and what the output feeds decide them."""
    def block(gui: str, **model: Any) -> dict[str, Any]:
        return {"obj": "Block", "gui": gui, "name": gui.lower(), "model": model}

    def link(a: int, p: int, b: int, q: int, kind: int) -> dict[str, Any]:
        return {"obj": "Link", "from": [a, p], "to": [b, q], "ct": [1, kind]}
    open_out = {"out": [-2], "outtyp": [-3]}
    inner = [block("IN_f", ipar=[1], out=[-1], outtyp=[-1]), block("CLKINV_f", ipar=1, evtout=1),
             block("SAMPHOLD_m", **{"in": [-2], "intyp": [-3], "evtin": 1}, **open_out),
             block("CONVERT", ipar=0, **{"in": -1, "intyp": -1, "out": -1, "outtyp": -2}), block("OUT_f", ipar=[1], **{"in": [-1], "intyp": [-1]}),
             link(1, 1, 3, 1, 1), link(2, 1, 3, 1, -1), link(3, 1, 4, 1, 1), link(4, 1, 5, 1, 1)]
    ports = {"in": -1, "intyp": -1, "out": -1, "outtyp": -1}
    objs = [block("EVTDLY_c", evtin=1, evtout=1, ipar=2, firing=0), link(1, 1, 1, 1, -1),
            block("Modulo_Count", evtin=1, ipar=9, dstate=0, out=1, outtyp=7),
            block("MUX", **{"in": [1, 1], "intyp": [-1, -1], "out": 2, "outtyp": -1}),
            {"obj": "Block", "gui": "S", "name": "s", "model": {"sim": "super", "evtin": 1, **ports, "rpar": {"objs": inner}}},
            block("DOLLAR_m", dstate=[3, 4], **{"in": -1, "intyp": 5, "out": -1, "outtyp": 5}), link(1, 1, 3, 1, -1), link(3, 1, 4, 1, 1),
            link(3, 1, 4, 2, 1), link(4, 1, 5, 1, 1), link(1, 1, 5, 1, -1), link(5, 1, 6, 1, 1)]
    made, _ = same(program, json.dumps({"objs": objs}), "s", [], tmp_path)
    with design_file(made) as path:
        rows = [line.split()[2:] for line in program.text("map", path).splitlines()]
    assert rows == [["EVTDLY_c"], ["SENSOR", "uint16[1x1]"], ["SENSOR", "uint16[1x1]"], ["MUX", "uint16[2x1]"], ["SAMPHOLD_m", "uint16[2x1]"],
                    ["CONVERT", "int8[2x1]"]]


def test_names_lines_and_columns_are_kept(program: Program) -> None:
    made = extract(TOP / "examples" / "closed-loop" / "loop.json", "controller", program)
    whole, part = flat.read(TOP / "examples" / "closed-loop" / "loop.json"), flat.Flat(made.text)
    for number, here in made.numbers.items():
        assert part.name(here) == whole.name(number) and part.blocks[here - 1].item.python == whole.blocks[number - 1].item.python
    assert [part.name(block.number) for block in part.blocks if block.kind == "SENSOR"] == ["wanted", "speed"]
    assert [dataclasses.astuple(entry) for entry in made.columns.entries] == [
        (1, "wanted", 1, "wanted", 1, "int16", "wanted", ("tick",)), (2, "speed", 2, "speed", 1, "int16", "motor.speed", ("tick",))]


def test_names_that_would_be_two(program: Program, tmp_path: Path) -> None:
    """A sensor whose input has the name of a clock that comes along, or of another input, gets a number behind it; none is without a name."""
    @s.subsystem
    def part(tick: s.Signal, beat: s.Event) -> s.Signal:
        return s.hold(tick, on=beat, name="held")

    @s.subsystem
    def timing() -> s.Event:
        beat = s.clock(4)
        return beat

    with s.Diagram("twice") as design:
        tick = s.clock(2)
        beat = timing()
        part(s.counter(9, on=tick, name="count"), tick | beat, name="controller")
    made, compared = same(program, design.to_json(), "controller", [], tmp_path)
    assert compared > 30
    found = flat.Flat(made.text)
    assert [found.name(block.number) for block in found.blocks] == ["tick", "beat.beat", "tick 2", "controller.held"]
    assert "#define SCI_TICK_2_COLUMN 1 /* input 1 of controller: count */\n" in header(made, program=program).text


def test_an_unnamed_superblock_by_its_place(program: Program, tmp_path: Path) -> None:
    text = (TOP / "examples" / "closed-loop" / "loop.json").read_text().replace('"name": "controller", ', "")
    made, compared = same(program, text, "7", [], tmp_path)
    assert compared == 8 and made.columns.controller == "SUPER_f 7"


@s.subsystem
def counts_of(first: s.Event, second: s.Event, value: s.Signal) -> s.Signal:
    """Who comes first of two clocks at one date is seen in the sum: the first adds 1, the second doubles."""
    total = s.delay(s.int32, on=[first, second])
    inner = s.clock(6, name="inner")
    total.feed(s.choose((first, total + 1), (second, total * 2)))
    return s.choose((inner, total), (first, value))


@pytest.mark.parametrize("order", range(6))
def test_events_of_one_date_keep_their_order(order: int, program: Program, tmp_path: Path) -> None:
    """Clocks before and behind the superblock and in it, whose events come at the same dates."""
    with s.Diagram("order") as design:
        if order % 2:
            second = s.clock(4, first=order // 2, name="second")
        early = s.clock(2, name="early")
        value = s.counter(7, on=early)
        late = s.later_event()
        first = s.clock(2, name="first") if order % 3 else late
        after = late if not order % 2 else second
        counts_of(first, after, value, name="controller")
        late.feed(s.timer(4, first=0, on=[early], name="behind"))
    made, compared = same(program, design.to_json(), "controller", [], tmp_path)
    assert compared > 30
    assert list(made.numbers.values()) == sorted(made.numbers.values())


def test_clocks_come_along_whole(program: Program, tmp_path: Path) -> None:
    """A clock that is divided by a counter and a condition, taken by a tag, and an event that goes out and comes back late."""
    @s.subsystem
    def part(value: s.Signal, back: s.Event) -> s.Event:
        slow = s.take_event("slow")
        held = s.hold(value, on=slow)
        answer, _ = s.when(held - 3, on=slow)
        s.counter(100, on=back, name="returned")
        return answer

    with s.Diagram("clocks") as design:
        tick = s.clock(5)
        phase = s.counter(3, on=tick)
        often, seldom = s.when(phase - 1, on=tick)
        s.give("slow", seldom, everywhere=True)
        noise = s.counter(11, on=tick)
        back = s.later_event()
        controller = part(noise, back)
        back.feed(s.timer(7, on=[controller, often], name="late"))
    made, compared = same(program, design.to_json(), "controller", [], tmp_path, 200)
    assert compared > 40
    names = [flat.Flat(made.text).name(number) for number in made.numbers.values()]
    assert {"tick", "phase", "late", "controller.returned"} <= set(names) and "noise" not in names
    assert made.columns.entries[0].events == ("tick",)


def test_a_signal_that_goes_round_the_outside_stays(program: Program, tmp_path: Path) -> None:
    """An output that is led back to an input needs no column, and a tag that is given inside and taken outside is left."""
    @s.subsystem
    def part(value: s.Signal, tick: s.Event) -> s.Signal:
        before = s.delay(value, initial=3, on=tick)
        return before + 2

    with s.Diagram("round") as design:
        tick = s.clock(2)
        back = s.later(s.int32)
        controller = part(back, tick)
        back.feed(controller)
    made, compared = same(program, design.to_json(), "controller", [], tmp_path)
    assert compared > 30 and made.columns.entries == ()

    @s.subsystem
    def giving(tick: s.Event) -> None:
        s.give("count", s.counter(5, on=tick), everywhere=True)

    with s.Diagram("given") as design:
        giving(s.clock(2), name="controller")
        s.hold(s.take("count"), name="outside")
    made, compared = same(program, design.to_json(), "controller", [], tmp_path)
    assert compared > 30 and made.columns.entries == ()


# ---- refusals ----


def refused(design: s.Diagram, name: str = "controller") -> str:
    """The sentence with which a superblock isn't cut out."""
    with pytest.raises(DataError) as raised:
        extract(design, name)
    return str(raised.value)


def test_inheritance_across_the_border(program: Program) -> None:
    @s.subsystem
    def part(value: s.Signal) -> s.Signal:
        twice = value * 2
        return twice

    with s.Diagram("inherits") as design:
        count = s.counter(9, on=s.clock(3))
        part(count, name="controller")
    told = refused(design)
    assert "`controller.twice` (test_extract.py:" in told
    assert "has no activation input, so it is activated through input `value` of `controller`" in told
    assert "by `count` (test_extract.py:" in told and "lead a clock to it" in told


def test_more_elements_than_columns(program: Program) -> None:
    def drawn(many: int, sensors: int) -> s.Diagram:
        @s.subsystem
        def part(first: s.Signal, second: s.Signal, tick: s.Event) -> None:
            s.hold(first, on=tick)
            s.hold(second, on=tick)
            for column in range(1, sensors + 1):
                s.sensor(column, s.int8, on=tick)

        with s.Diagram("many") as design:
            part(s.constant([1] * 200, s.int8), s.constant([2] * many, s.int8), s.clock(1), name="controller")
        return design
    assert refused(drawn(56, 0)).startswith("the inputs of `controller` have 256 elements, and an input file has at most 255 columns")
    assert "have 254 elements beside 2 sensors inside" in refused(drawn(54, 2))
    assert len(extract(drawn(54, 1), "controller").columns.entries) == 254
    assert len(extract(drawn(55, 0), "controller").columns.entries) == 255


def test_names_that_are_no_superblock(program: Program, tmp_path: Path) -> None:
    with s.Diagram("names") as design:
        tick = s.clock(2)
        left = averager(s.counter(5, on=tick, name="count"), tick)
        averager(left, tick, name="right")
    assert refused(design, "rigth").endswith("has no superblock `rigth`: did you mean `right`?")
    assert refused(design, "zzz").endswith("has no superblock `zzz`: it has `left`, `right`")
    assert refused(design, "count").endswith("is a block, and no superblock: what is cut out has an inside")
    assert refused(design, "left.total").endswith("is a block, and no superblock: what is cut out has an inside")
    with s.Diagram("none") as bare:
        s.clock(2)
    assert refused(bare, "x").endswith("has no superblock `x`: it has none at all")
    twice = tmp_path / "twice.json"
    twice.write_text(design.to_json().replace('"name": "right"', '"name": "left"'))
    with pytest.raises(DataError, match="twice.json has 2 superblocks `left`: name one by its place, 3 or 4"):
        extract(twice, "left")
    assert extract(twice, "4").columns.entries[0].signal == "left.total 5"


def test_a_signal_by_a_tag_from_outside(program: Program) -> None:
    @s.subsystem
    def part(tick: s.Event) -> None:
        s.hold(s.take("level", s.int32), on=tick)

    with s.Diagram("tag") as design:
        tick = s.clock(2)
        s.give("level", s.counter(5, on=tick), everywhere=True)
        part(tick, name="controller")
    told = refused(design)
    assert "`controller.taken` (test_extract.py:" in told and "takes the tag 1, which is given outside of `controller` by `give_level`" in told


def test_a_matrix(program: Program) -> None:
    with s.Diagram("matrix") as design:
        averager(s.constant([[1, 2, 3], [4, 5, 6]], s.int8), s.clock(2), name="controller")
    assert refused(design).startswith("input `values` of `controller` is a matrix of 2 rows and 3 columns, and sensors give scalars")


def test_events_that_depend_on_the_outside(program: Program) -> None:
    @s.subsystem
    def part(go: s.Event) -> s.Signal:
        return s.counter(5, on=go, name="drive")

    with s.Diagram("measured") as design:
        door = s.sensor(1, s.uint8, on=s.clock(2, name="tick"))
        opened, _ = s.when(door)
        part(opened, name="controller")
    told = refused(design)
    assert "the event of `opened` (test" in told or "the event of `when` (test" in told
    assert "which activates `controller`, depends on the sensor `door` (test" in told and "decide inside of `controller`" in told
    with s.Diagram("plant") as design:
        tick = s.clock(2)
        back = s.later_event()
        controller = part(tick | back)
        level = s.delay(controller, on=tick)
        full, _ = s.when(level, on=tick)
        back.feed(full)
    told = refused(design)
    assert "depends on `level` (test" in told and "which is outside and reads `controller.drive` (test" in told


def test_inputs_that_are_read_at_start(program: Program) -> None:
    @s.subsystem
    def part(value: s.Signal) -> None:
        with s.when(s.constant(1, s.int8), name="begin"):
            s.hold(value, name="first")

    with s.Diagram("start") as design:
        part(s.constant(7, s.int8), name="controller")
    assert "`controller.first` (test_extract.py:" in refused(design) and "reads input `value` of `controller` at start" in refused(design)


def cut_of(program: Program, path: Path, name: str) -> Cut:
    found = flat.read(path)
    return Cut(found, Wiring(found), superblock(found, name), shapes(program, str(path)), schedules(program, str(path)))


def test_another_order_or_other_activations_would_be_refused(program: Program) -> None:
    """The controller is looked at before it is given: with blocks in another order, or with a schedule that isn't the whole's."""
    path = TOP / "examples" / "closed-loop" / "loop.json"
    cut, made = cut_of(program, path, "controller"), extract(path, "controller", program)
    with design_file(made) as file:
        rows = schedules(program, file)
    cutting_out._same_order(cut, made.numbers)
    cutting_out._same_activations(cut, made.numbers, rows)
    swapped = {**made.numbers, 7: made.numbers[8], 8: made.numbers[7]}
    with pytest.raises(DataError, match="`controller.error` .* and `controller.integral` .* would have numbers in another order"):
        cutting_out._same_order(cut, swapped)
    error = made.numbers[7]
    for wrong in ({**rows, (1, 1): {number: guards for number, guards in rows[1, 1].items() if number != error}},
                  {**rows, (1, 1): {**rows[1, 1], error: frozenset({(error, 1)})}}):
        with pytest.raises(DataError, match="`controller.error` .* would act otherwise at the event of `tick`"):
            cutting_out._same_activations(cut, made.numbers, wrong)
    with pytest.raises(DataError, match="`controller.error` .* would act otherwise at start"):
        cutting_out._same_activations(cut, made.numbers, {**rows, (0, 0): {error: frozenset()}})
    cut.schedules[2, 1][7] = frozenset()
    with pytest.raises(DataError, match="`controller.error` .* acts at the event of `step` .* too, which isn't taken along"):
        cutting_out._same_activations(cut, made.numbers, rows)


def test_what_the_program_refuses(program: Program, tmp_path: Path) -> None:
    with pytest.raises(Refused):
        extract(TOP / "examples" / "loop.json", "controller")
    with pytest.raises(ReadError, match="none.json can't be read"):
        extract(tmp_path / "none.json", "controller")
    (tmp_path / "text.json").write_text("text")
    with pytest.raises(Refused, match="text.json is no JSON"):
        extract(tmp_path / "text.json", "controller")

    @s.subsystem
    def part(values: s.Signal, tick: s.Event) -> None:
        s.hold(values, on=tick)
        for _ in range(1900):
            s.constant(1, s.int8)

    with s.Diagram("large") as design:
        part(s.constant([1] * 200, s.int8), s.clock(1), name="controller")
    told = refused(design)
    assert told.startswith("what is cut out is refused: ") and "2048" in told


def test_runs_that_lack_a_signal(program: Program) -> None:
    path = TOP / "examples" / "closed-loop" / "loop.json"
    made = extract(path, "controller", program)
    with pytest.raises(DataError, match="doesn't have the signal of block 6, output 1, element 1, which feeds column 1"):
        made.inputs(simulate(path, until=50, signals=["motor"], program=program))


def test_inputs_that_answer_at_once_are_noted(program: Program) -> None:
    with s.Diagram("gain") as design:
        tick = s.clock(2)
        back = s.later(s.int32)

        @s.subsystem
        def part(measured: s.Signal, tick: s.Event) -> s.Signal:
            before = s.delay(measured, on=tick)
            return s.gain(before, 2, on=tick, name="drive")

        controller = part(back, tick)
        back.feed(s.gain(controller, 3, on=tick, name="motor"))
    assert "input `measured` of `controller` depends at once on `controller.drive`" in extract(design, "controller").notes[0]
    assert extract(TOP / "examples" / "closed-loop" / "loop.json", "controller").notes == ()


# ---- the command ----


def test_the_command(program: Program, tmp_path: Path, capsys: pytest.CaptureFixture[str]) -> None:
    loop, out = str(TOP / "examples" / "closed-loop" / "loop.json"), tmp_path / "c.json"
    assert cli.main(["extract", loop, "controller", "-o", str(out)]) == 0
    assert capsys.readouterr().out.splitlines() == [
        "column 1 is wanted (int16): wanted, taken at tick", "column 2 is speed (int16): motor.speed, taken at tick",
        f"{tmp_path / 'c.columns.json'} has this too"]
    assert json.loads((tmp_path / "c.columns.json").read_text())["columns"][1]["signal"] == "motor.speed"
    assert cli.main(["header", str(out), "-o", str(tmp_path / "c.h")]) == 0
    assert "#define SCI_SPEED_COLUMN 2 /* input 2 of controller: motor.speed */\n" in (tmp_path / "c.h").read_text()
    assert cli.main(["extract", loop, "controler", "-o", str(tmp_path / "d.json")]) == 1
    assert "did you mean `controller`" in capsys.readouterr().err
    assert cli.main(["extract", loop, "controller", "-o", str(tmp_path / "none" / "d.json")]) == 4
    assert not list(tmp_path.glob("d*")) and cli.main(["extract", loop, "controller", "-o", "/dev/null"]) == 0
    assert "column 1 is wanted" in capsys.readouterr().err and not Path("/dev/null.columns.json").exists()
