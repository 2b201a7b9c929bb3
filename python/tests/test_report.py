"""The report: what its page holds against the program's own answers, refused designs, stops, odd data, and what is missing."""
from __future__ import annotations

import base64
import hashlib
import json
import os
import re
import shutil
import signal
import subprocess
import sys
from pathlib import Path
from typing import Any

import pytest
from conftest import TOP
from small import block, clock, constant, counter, event, gain, inside, sensor, total, wire, written
from waiting import running, until

import scicos as s
from scicos import report_packing
from scicos.cli import main
from scicos.errors import DataError
from scicos.program import Program
from scicos.report import report, title_of

EXAMPLES = TOP / "examples"
DESIGNS = {"thermostat": (540, 100), "pi-controller": (80, 100), "stepper": (400, 100), "traffic-light": (200, 100)}
HOSTILE = '</script><script>alert(1)</script>&"\\n<b>'


def numbers(text: str) -> list[int]:
    """Numbers as the page has them: seven bits in a byte, the least first."""
    found, number, shift = [], 0, 0
    for byte in base64.b64decode(text):
        number |= (byte & 127) << shift
        shift += 7
        if byte < 128:
            found.append(number)
            number = shift = 0
    return found


def data_of(text: str) -> Any:
    """The data of a page's waveforms."""
    found = re.search(r'<script type="application/json" id="data">(.*?)</script>', text, re.S)
    assert found
    return json.loads(found[1])


def steps(row: Any) -> dict[int, int]:
    """By reaction the value that a signal has from there on."""
    rows, value, at = {}, row["first"], 0
    found = numbers(row["data"])
    for more, change in zip(found[::2], found[1::2]):
        at += more
        value += -(change + 1) // 2 if change % 2 else change // 2
        rows[at] = value
    return rows


@pytest.mark.parametrize("name", DESIGNS)
def test_the_page_holds_what_the_trace_shows(name: str, program: Program) -> None:
    folder, (until, events) = EXAMPLES / name, DESIGNS[name]
    trace = program.ask("simulate", folder / "diagram.json", folder / "inputs.json", until, events).out.decode().splitlines()
    data = data_of(report(folder / "diagram.json", folder / "inputs.json", until=until, events=events, program=program).text)
    assert data["reactions"] == sum(line.startswith(("start", "event")) for line in trace)
    dates, date = [], 0
    for more in numbers(data["dates"]):
        date += more
        dates.append(date)
    assert dates == [0] + [int(line.split()[1]) for line in trace if line.startswith("event")]
    held = {(row["block"], at): steps(row) for at, row in enumerate(data["signals"])}
    order: dict[int, list[int]] = {}
    for at, row in enumerate(data["signals"]):
        order.setdefault(row["block"], []).append(at)
    reaction, now, shown = -1, {key: data["signals"][key[1]]["first"] for key in held}, 0
    places: dict[tuple[int, ...], int] = {}
    for line in trace:
        word, *rest = line.split()
        if word in ("start", "event"):
            reaction += 1
            for key, rows in held.items():
                now[key] = rows.get(reaction, now[key])
        elif word == "val":
            number, port, element, value = map(int, rest)
            at = places.setdefault((number, port, element), len([one for one in places if one[0] == number]))
            assert now[number, order[number][at]] == value, line
            shown += 1
    assert shown > 30


def test_the_same_inputs_give_the_same_bytes(program: Program) -> None:
    folder = EXAMPLES / "watchdog"
    first, second = (report(folder / "diagram.json", folder / "inputs.json", until=200, program=program).text for _ in range(2))
    assert first == second and "</html>" in first


def test_nothing_comes_from_elsewhere(program: Program) -> None:
    folder = EXAMPLES / "thermostat"
    text = report(folder / "diagram.json", folder / "inputs.json", until=540, program=program).text
    assert not re.search(r"https?:|src=|url\(|@import|<link|<iframe", text)
    policy = re.search(r'Content-Security-Policy" content="([^"]*)"', text)
    assert policy and policy[1].startswith("default-src 'none';")
    for part in ("style", "script"):
        inner = re.search(rf"<{part}>(.*?)</{part}>", text, re.S)
        assert inner
        due = base64.b64encode(hashlib.sha256(inner[1].encode()).digest()).decode()
        assert f"{part}-src 'sha256-{due}'" in policy[1]


def test_names_are_text(program: Program, tmp_path: Path) -> None:
    path = written(tmp_path, [clock(HOSTILE), counter("count <i>"), event([1, 1], [1, 1]), event([1, 1], [2, 1]),
                              inside(HOSTILE + "2", [block("IN_f", HOSTILE, ipar=1, out=1, outtyp=3),
                                                     gain("g"), wire([1, 1], [2, 1])], in_=1), wire([2, 1], [5, 1])])
    made = report(path, until=20, title=HOSTILE, program=program)
    assert "<script>alert" not in made.text and "<i>" not in made.text and "<b>" not in made.text
    assert data_of(made.text)["sources"][0]["name"] == HOSTILE
    if shutil.which("dot"):
        assert made.text.count('<div class="picture"><svg') == 3


@pytest.mark.skipif(not shutil.which("dot"), reason="Graphviz isn't installed")
def test_each_level_has_a_picture_and_superblocks_lead_to_theirs(program: Program) -> None:
    text = report(EXAMPLES / "thermostat" / "diagram.json", program=program).text
    assert re.findall(r'<figure class="level" id="([^"]*)">', text) == ["level", "level-4", "level-5", "flat"]
    top = text[text.index('id="level"'):text.index('id="level-4"')]
    assert set(re.findall(r' data-level="([^"]*)" role', top)) == {"level-4", "level-5"}
    assert re.findall(r' data-block="(\d+)" role', top) == ["1", "2", "3", "14"]
    assert "kitchen" in top and "temperature" in top and 'id="node' not in text


def test_a_refused_design_has_its_loop_in_red(program: Program, tmp_path: Path, capsys: pytest.CaptureFixture[str]) -> None:
    loop = [total("sum"), gain("half"), wire([1, 1], [2, 1]), wire([2, 1], [1, 2])]
    objects = [clock(), sensor(1, "speed"), event([1, 1], [1, 1]), event([1, 1], [2, 1]),
               inside("part", [*loop, block("IN_f", "in", ipar=1, out=1, outtyp=3), wire([5, 1], [1, 1])], in_=1), wire([2, 1], [5, 1])]
    path = written(tmp_path, objects)
    assert main(["report", str(path), "-o", str(tmp_path / "page.html")]) == 1
    text, told = (tmp_path / "page.html").read_text(), capsys.readouterr().err
    assert "an algebraic loop" in told and "put a DOLLAR_m" in text and 'role="alert"' in text
    if shutil.which("dot"):
        part = text[text.index('id="level-5"'):text.index('id="flat"')]
        assert part.count('class="node blamed"') == 2 and part.count('class="edge blamed"') == 2
        top = text[text.index('id="level"'):text.index('id="level-5"')]
        assert top.count('class="node blamed"') == 1 and 'class="edge blamed"' not in top


@pytest.mark.parametrize("content", [b"", b"{", b"\xff\xfe", b'{"objs": [{"obj": "Block", "gui": "a\\"b", "name": "\\u0000"}, 3, null',
                                     b'{"objs": [{"obj": "Link", "from": [9, 9], "to": {}, "ct": [1, 1]}]}', b"[" * 100000,
                                     b'{"objs": [{"obj": "Block", "gui": "CONST_m", "model": {"ipar": [[1], {}, "x"], "out": "y"}}]}'])
def test_odd_files_have_a_page(content: bytes, program: Program, tmp_path: Path) -> None:
    (tmp_path / "odd").write_bytes(content)
    made = report(tmp_path / "odd", until=5, program=program)
    assert made.refusal and "</html>" in made.text


def test_a_stop_is_explained(program: Program, tmp_path: Path, capsys: pytest.CaptureFixture[str]) -> None:
    page = tmp_path / "stop.html"
    words = ["report", str(EXAMPLES / "tags.json"), str(EXAMPLES / "readings.json"), "--until", "30", "--events", "20", "-o", str(page)]
    assert main(words) == 6
    assert "the run stopped at date 30: SENSOR 2" in capsys.readouterr().err
    assert "The run stopped at date 30: SENSOR 2" in page.read_text() and data_of(page.read_text())["stopped"]


def test_refused_inputs_have_a_page(program: Program, tmp_path: Path) -> None:
    (tmp_path / "inputs.json").write_text("[[99999]]")
    (tmp_path / "few.json").write_text("[]")
    path = written(tmp_path, [clock(), sensor(1, "speed", 4), event([1, 1], [1, 1]), event([1, 1], [2, 1])])
    for name in ("inputs.json", "few.json"):
        made = report(path, tmp_path / name, until=5, program=program)
        assert made.refusal and "refuses these inputs" in made.text and 'id="schedule"' in made.text and 'id="rows"' not in made.text


def test_warnings_schedule_and_coverage_are_told_by_name(program: Program, tmp_path: Path) -> None:
    path = written(tmp_path, [clock("tick"), counter("count"), event([1, 1], [1, 1]), event([1, 1], [2, 1]), constant(3, "idle")])
    text = report(path, until=12, program=program).text
    assert re.search(r'not taken</span> <button[^>]*data-block="3">idle</button>', text)
    assert re.search(r"<h3>tick</h3> <small>3 reactions</small></summary><ol><li><button[^>]*>tick</button></li><li><button[^>]*>count<", text)
    assert "<strong>3 of 3</strong> blocks and outcomes" in text and "base 10, first value 0" in text and "d.json:3" in text


def test_without_dot_there_are_lists(program: Program, monkeypatch: pytest.MonkeyPatch) -> None:
    monkeypatch.setattr(shutil, "which", lambda name: None)
    text = report(EXAMPLES / "first.json", until=12, program=program).text
    assert "apt-get install graphviz" in text and "<svg" not in text and "EVTDLY_c 1" in text


def test_a_design_that_is_too_large_to_draw_is_listed(program: Program, tmp_path: Path) -> None:
    text = report(written(tmp_path, [constant(1, f"c{at}") for at in range(400)]), program=program).text
    assert "400 objects, too many for a drawing" in text and text.count('<template id="block-') == 400


def test_a_page_has_a_bound_on_changes(program: Program, monkeypatch: pytest.MonkeyPatch) -> None:
    monkeypatch.setattr(report_packing, "MOST_CHANGES", 2)
    with pytest.raises(DataError, match="--signal"):
        report(EXAMPLES / "first.json", until=50, program=program)


def test_chosen_signals_and_dates_far_away(program: Program, tmp_path: Path) -> None:
    path = written(tmp_path, [clock("tick", 2**31 - 1, 2**31 - 1), counter("count"), event([1, 1], [1, 1]), event([1, 1], [2, 1]), constant(3, "c")])
    data = data_of(report(path, until=2**62, events=3, signals=["count"], program=program).text)
    assert sum(numbers(data["dates"])) == 3 * (2**31 - 1) and [row["name"] for row in data["signals"]] == ["count"]


def test_a_diagram_of_the_builder(program: Program) -> None:
    with s.Diagram("ramp", mode="saturate") as design:
        tick = s.clock(10)
        wanted = s.sensor(1, s.int16, on=tick)
        held = s.hold(wanted, on=tick)
    made = report(design, {"wanted": [1, 2, 3]}, until=20, program=program)
    assert "<title>ramp</title>" in made.text and "test_report.py:" in made.text and held is not None
    assert title_of("/a/b/diagram.json") == "b" and title_of("x/first.json") == "first"


def test_wrong_words(program: Program, capsys: pytest.CaptureFixture[str]) -> None:
    for words, told in ((["i"], "give --until"), (["--until", "1", "--events", "1000001"], "1,000,000 events")):
        assert main(["report", str(EXAMPLES / "first.json"), *words]) == 2
        assert told in capsys.readouterr().err
    assert main(["report", "/nowhere.json"]) == 3
    assert main(["report", str(EXAMPLES / "first.json"), "/nowhere.json", "--until", "1"]) == 3


@pytest.mark.skipif(not os.path.exists("/dev/full"), reason="there is no /dev/full")
def test_a_full_disk(program: Program, capsys: pytest.CaptureFixture[str]) -> None:
    assert main(["report", str(EXAMPLES / "first.json"), "-o", "/dev/full"]) == 4
    assert "/dev/full can't be written: No space left" in capsys.readouterr().err


def test_ctrl_c_leaves_nothing(program: Program, tmp_path: Path) -> None:
    slow, begun = tmp_path / "slow", tmp_path / "begun"
    slow.write_text(f"#!{sys.executable}\nimport os, sys, time\nif sys.argv[1] != 'simulate':\n    os.execv({program.path!r}, sys.argv)\n"
                    f"print('start', flush=True)\nopen({str(begun)!r}, 'w').close()\ntime.sleep(600)\n")
    slow.chmod(0o755)
    words = [str(TOP / "scicos-kit"), "report", str(EXAMPLES / "first.json"), str(EXAMPLES / "no-inputs.json"), "--until", "50", "-o", "page.html"]
    with running(words, cwd=tmp_path, env={**os.environ, "SCICOS": str(slow)}, stderr=subprocess.PIPE) as ran:
        until(begun.exists, ran)
        ran.send_signal(signal.SIGINT)
        told = ran.communicate(timeout=60)[1]
    assert (ran.returncode, told) == (130, "scicos-kit: ended by Ctrl-C\n") and set(tmp_path.iterdir()) == {slow, begun}
