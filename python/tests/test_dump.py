"""Dumps: read as the program's `vcdat` reads them, and copied with names and scopes; read by GTKWave's readers where these are installed."""
from __future__ import annotations

import io
import re
import shutil
import subprocess
from pathlib import Path

import pytest

from scicos import dump
from scicos.errors import DataError, ReadError, WordsError
from scicos.program import Program, Refused

CASES = Path(__file__).resolve().parents[2] / "cases"
COUNTER = """$timescale 1 ns $end
$scope module scicos $end
$var integer 32 v1 b2_1_1 $end
$var integer 32 v2 b3_1_1 $end
$var integer 32 v3 b4_1_1 $end
$upscope $end
$enddefinitions $end
#0
$dumpvars
b00000000000000000000000000000001 v1
b00000000000000000000000000000001 v2
b00000000000000000000000000000000 v3
$end
#5
b00000000000000000000000000000010 v2
b00000000000000000000000000000001 v3
#10
b00000000000000000000000000000011 v2
b00000000000000000000000000000010 v3
"""  # of docs/FORMAT.md


def test_reading() -> None:
    found = dump.read(COUNTER.encode())
    assert found.signals == [(3, (2, 1, 1)), (3, (3, 1, 1)), (3, (4, 1, 1))] and found.first == [1, 1, 0]
    assert found.ticks == [(5, [(2, 2), (3, 1)]), (10, [(2, 3), (3, 2)])]
    assert found.told(7) == "b2_1_1 1\nb3_1_1 2\nb4_1_1 1\n" and found.written() == COUNTER


@pytest.mark.parametrize("folder", sorted(path.name for path in CASES.glob("vcdat-*")))
def test_the_cases_of_vcdat(folder: str) -> None:
    words = (CASES / folder / "words").read_text().split()
    content = (CASES / folder / words[1]).read_bytes()
    told = (CASES / folder / "err").read_text()
    if told:
        with pytest.raises(dump.WrongLine, match=f"^{told.split()[-1]}$"):
            dump.read(content)
    else:
        assert dump.read(content).told(int(words[2])) == (CASES / folder / "out").read_text()


def test_wrong_dumps(tmp_path: Path) -> None:
    (tmp_path / "dump.vcd").write_text(COUNTER.replace("#10", "#5"))
    with pytest.raises(DataError, match="dump.vcd: line 17 is no line of a dump of `scicos vcd`"):
        dump.read_file(tmp_path / "dump.vcd")
    with pytest.raises(ReadError):
        dump.read_file(tmp_path / "none.vcd")


def test_first_values(program: Program, examples: Path) -> None:
    assert dump.first_values(program, str(examples / "counter.json")) == {"b2_1_1": 1, "b3_1_1": 1, "b4_1_1": 0}


def copy(examples: Path, program: Program, name: str = "thermostat", until: int = 540, tick: str = "1 ns") -> str:
    """The copy of a design's dump."""
    stream = io.BytesIO()
    status = dump.dump(examples / name / "diagram.json", examples / name / "inputs.json", stream, until=until, tick=tick, program=program)
    assert status == 0
    return stream.getvalue().decode()


def test_names_and_scopes(examples: Path, program: Program) -> None:
    text = copy(examples, program, tick="1 ms")
    head, body = text.split("$enddefinitions $end\n")
    assert head.splitlines()[:8] == ["$timescale 1 ms $end", "$scope module scicos $end", "$var integer 16 v1 kitchen $end",
                                     "$var integer 16 v2 study $end", "$scope module of_the_kitchen $end", "$var wire 8 v3 off $end",
                                     "$var wire 8 v4 on $end", "$var wire 8 v5 unless_cold $end"]
    assert head.count("$scope") == head.count("$upscope") == 3
    own = program.text("vcd", examples / "thermostat" / "diagram.json", examples / "thermostat" / "inputs.json", 540, 1000000)
    assert body == own.split("$enddefinitions $end\n")[1]


def test_names_within_a_scope_differ(examples: Path, program: Program) -> None:
    for name in ("thermostat", "traffic-light", "push-button", "pi-controller"):
        outer, seen = [], []
        for line in copy(examples, program, name, 20).splitlines():
            words = line.split()
            outer += [words[2]] if words[0] == "$scope" else []
            outer = outer[:-1] if words[0] == "$upscope" else outer
            seen += [(*outer, words[4])] if words[0] == "$var" else []
        assert len(seen) == len(set(seen)) > 4 and all(re.fullmatch(r"\w+", word) for names in seen for word in names)


def test_a_refused_run_writes_nothing(examples: Path, program: Program) -> None:
    stream = io.BytesIO()
    with pytest.raises(Refused):
        dump.dump(examples / "thermostat" / "diagram.json", str(examples / "no-inputs.json"), stream, until=1, program=program)
    assert stream.getvalue() == b""


def test_a_tick_that_is_none(examples: Path, program: Program) -> None:
    with pytest.raises(WordsError, match="1, 10 or 100 of s, ms"):
        copy(examples, program, tick="5 ms")


@pytest.mark.skipif(not shutil.which("vcd2fst") or not shutil.which("fst2vcd"), reason="vcd2fst isn't installed: apt-get install gtkwave")
def test_viewers_read_the_copy(examples: Path, program: Program, tmp_path: Path) -> None:
    (tmp_path / "run.vcd").write_text(copy(examples, program, "pi-controller", until=80))
    subprocess.run(["vcd2fst", "run.vcd", "run.fst"], cwd=tmp_path, check=True, capture_output=True)
    read = subprocess.run(["fst2vcd", "run.fst"], cwd=tmp_path, check=True, capture_output=True, text=True).stdout
    own = dump.read(program.ask("vcd", examples / "pi-controller" / "diagram.json", examples / "pi-controller" / "inputs.json", 80, 1000000).out)
    assert len(re.findall(r"^\$var", read, re.M)) == len(own.signals) and read.count("$scope") == (tmp_path / "run.vcd").read_text().count("$scope")
    last = {}
    for line in read.split("$enddefinitions $end")[1].splitlines():
        found = re.fullmatch(r"b([01]+) (\S+)", line)
        last.update({found[2]: int(found[1], 2)} if found else {})
    width = dump.WIDTH
    due = [value % (1 << width[code]) for (code, _), value in zip(own.signals, own.values(2**62))]
    codes = re.findall(r"^\$var \w+ \d+ (\S+)", read, re.M)
    assert [last[code] for code in codes] == due
