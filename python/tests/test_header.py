"""Headers for C: names held against the tables of the designs' pages, compiled by gcc, and what is refused."""
from __future__ import annotations

import json
import re
import shutil
import subprocess
from pathlib import Path
from typing import Any

import pytest

import scicos as s
from scicos import cli, header
from scicos.errors import DataError, DesignError, ReadError, WordsError
from scicos.program import Program, Refused

TOP = Path(__file__).resolve().parents[2]
DESIGNS = sorted(path.parent for path in (TOP / "examples").glob("*/diagram.json"))
FLAGS = ["-std=c99", "-Wall", "-Wextra", "-pedantic", "-Werror"]
gcc = pytest.mark.skipif(shutil.which("gcc") is None, reason="gcc is not installed")


def defined(text: str) -> dict[str, str]:
    """The names that a header defines, each with its value."""
    return dict(re.findall(r"^#define (\w+) ([^/\n]*?)(?: /\*.*)?$", text, re.M))


def compiled(text: str, work: Path, source: str = "", *flags: str) -> str:
    """What gcc says of a file that takes the header twice, and then the source."""
    (work / "names.h").write_text(text)
    (work / "host.c").write_text(f'#include "names.h"\n#include "names.h"\n{source}\nint main(void) {{ return 0; }}\n')
    ran = subprocess.run(["gcc", *FLAGS, *flags, "-o", "host", "host.c"], cwd=work, capture_output=True, text=True)
    return ran.stderr


def held(condition: str) -> str:
    """A line of C that a compiler takes only where the condition holds."""
    held.count = getattr(held, "count", 0) + 1  # type: ignore[attr-defined]
    return f"extern char held{held.count}[({condition}) ? 1 : -1];"  # type: ignore[attr-defined]


@pytest.mark.parametrize("folder", DESIGNS, ids=lambda folder: folder.name)
def test_numbers_are_those_of_the_page(folder: Path, program: Program) -> None:
    """The table of a design's page has numbers and names; kinds without values that program nothing aren't told to a host."""
    names = defined(header.header(folder / "diagram.json", program=program).text)
    rows = re.findall(r"^\| (\d+) \| (\S+) \| (\w+) \| ([^|]+) \|", (folder / "README.md").read_text(), re.M)
    assert len(rows) > 4
    for number, place, kind, name in rows:
        own = re.sub(r"[^A-Z0-9]+", "_", name.strip().upper())
        has = [value for key, value in names.items() if key == f"SCI_{own}" or "/" in place and key.endswith(f"_{own}")]
        assert (number in has) == (kind not in ("IFTHEL_f", "ESELECT_f", "HALT_f"))


@gcc
@pytest.mark.parametrize("folder", DESIGNS, ids=lambda folder: folder.name)
def test_headers_are_c(folder: Path, program: Program, tmp_path: Path) -> None:
    """The header of each design compiles, with the checksum that the command cksum tells of its C, and with no other."""
    text = header.header(folder / "diagram.json", program=program).text
    with open(folder / "program.c", "rb") as file:
        checksum = subprocess.run(["cksum"], stdin=file, capture_output=True, text=True).stdout.split()[0]
    assert compiled(text, tmp_path, "", f"-DSCI_PROGRAM={checksum}u") == ""
    assert "the names are of another diagram" in compiled(text, tmp_path, "", f"-DSCI_PROGRAM={(int(checksum) + 1) % 2 ** 32}u")


@gcc
def test_types_ports_columns_and_ticks(program: Program, tmp_path: Path) -> None:
    with s.Diagram("names") as design:
        tick = s.clock(7, first=3)
        level = s.sensor(9, s.uint16, on=tick)
        parts = s.demux(s.mux(level, level, level, name="three"), [2, 1], name="parts")
        late = s.timer(50, on=tick)
        s.counter(5, on=late, name="timeouts", type=s.int8)
        s.constant([[1, 2, 3], [4, 5, 6]], s.int32, name="table")
        assert parts
    source = "\n".join(map(held, [
        "SCI_TICK == 1", "SCI_TICK_TICKS == 7", "SCI_TICK_FIRST == 3", "SCI_LEVEL == 2", "SCI_LEVEL_COLUMN == 9", "SCI_COLUMNS == 9",
        "sizeof(sci_level_t) == 2", "SCI_LEVEL_T_MIN == 0", "SCI_LEVEL_T_MAX == 65535", "SCI_THREE_ELEMENTS == 3", "SCI_PARTS == 4",
        "SCI_PARTS_OUT1 == 1", "SCI_PARTS_OUT2 == 2", "SCI_PARTS_OUT1_ELEMENTS == 2", "sizeof(sci_parts_out2_t) == 2", "SCI_LATE_TICKS == 50",
        "SCI_TIMEOUTS_T_MIN == -128", "SCI_TIMEOUTS_T_MAX == 127", "sizeof(sci_timeouts_t) == 1", "(sci_timeouts_t)-1 < 0", "SCI_BLOCKS == 7",
        "SCI_TABLE_ELEMENTS == 6", "SCI_TABLE_ROWS == 2", "SCI_TABLE_T_MIN == -2147483647 - 1"]))
    text = header.header(design, program=program).text
    assert compiled(text, tmp_path, source) == ""
    assert "SCI_LATE_FIRST" not in text and "SCI_PARTS_ELEMENTS" not in text


def diagram(*names: str | None) -> dict[str, Any]:
    """Constants of these names."""
    return {"objs": [{"obj": "Block", "gui": "CONST_m", **({"name": name} if name else {}),
                      "model": {"ipar": [4], "out": [1], "outtyp": [3]}} for name in names]}


def text_of(work: Path, *names: str | None) -> header.Header:
    (work / "d.json").write_text(json.dumps(diagram(*names)))
    return header.header(work / "d.json")


def test_names_stay_where_blocks_come(program: Program, tmp_path: Path) -> None:
    before, after = text_of(tmp_path, "a", "motor drive"), text_of(tmp_path, "new", "a", None, "motor drive")
    first, second = defined(before.text), defined(after.text)
    assert first["SCI_MOTOR_DRIVE"] == "2" and second["SCI_MOTOR_DRIVE"] == "4"
    assert set(first) <= set(second) and first["SCI_CHECKSUM"] != second["SCI_CHECKSUM"]
    assert before.unnamed == () and after.unnamed == ("CONST_m 3",)


@gcc
def test_odd_names_are_legal(program: Program, tmp_path: Path) -> None:
    odd = ["größe", "2nd /* drive */", "ω??/", "--", "int", "a\\", "Δt é"]
    text = text_of(tmp_path, *odd).text
    assert [key for key, value in defined(text).items() if value in "1234567" and not key.endswith("_BLOCKS")] == [
        "SCI_GROSSE", "SCI_2ND_DRIVE", "SCI_U03A9", "SCI_U002DU002D", "SCI_INT", "SCI_A", "SCI_U0394T_E"]
    assert compiled(text, tmp_path) == ""


def test_a_clash_names_both(program: Program, tmp_path: Path) -> None:
    both = r"`motor drive` \(object 1, d.json:1\) and `motor_drive` \(object 3, d.json:1\) would both be SCI_MOTOR_DRIVE"
    with pytest.raises(DesignError, match=both):
        text_of(tmp_path, "motor drive", "x", "motor_drive")
    with pytest.raises(DesignError, match=r"`a` .*object 1.* and `a` .*object 2.* would both be SCI_A in C"):
        text_of(tmp_path, "a", "a")
    with pytest.raises(DesignError, match=r"`a` .* and `a t max` .* would both be SCI_A_T_MAX in C"):
        text_of(tmp_path, "a", "a t max")
    with pytest.raises(DesignError, match=r"the header's own SCI_BLOCKS and `blocks`"):
        text_of(tmp_path, "blocks")
    with pytest.raises(DesignError, match="the same in their first 63 characters"):
        text_of(tmp_path, "x" * 70, "x" * 71)
    assert cli.main(["header", str(tmp_path / "d.json"), "-o", str(tmp_path / "d.h")]) == 1 and not (tmp_path / "d.h").exists()


def test_wrong_words_and_files(program: Program, tmp_path: Path, capsys: pytest.CaptureFixture[str]) -> None:
    text_of(tmp_path, "a")
    for prefix in ("", "1A", "A-B", "_A", "é"):
        with pytest.raises(WordsError, match="begins no name in C"):
            header.header(tmp_path / "d.json", prefix)
    assert cli.main(["header", "--prefix", "m", str(tmp_path / "d.json")]) == 0
    assert "#define M_A 1\n" in capsys.readouterr().out
    with pytest.raises(Refused):
        header.header(TOP / "examples" / "loop.json")
    assert cli.main(["header", str(tmp_path / "none.json")]) == 3
    assert "none.json can't be read" in capsys.readouterr().err


def test_maps_of_columns_that_do_not_fit(program: Program, tmp_path: Path) -> None:
    text_of(tmp_path, "a")
    (tmp_path / "d.columns.json").write_text('{"controller": "c", "cksum": 1, "columns": []}')
    with pytest.raises(DataError, match="d.columns.json is of another diagram"):
        header.header(tmp_path / "d.json")
    for text in ("text", "[]", '{"columns": [1]}', '{"columns": [{"column": 1}]}'):
        (tmp_path / "d.columns.json").write_text(text)
        with pytest.raises(DataError, match="d.columns.json is no map of columns"):
            header.header(tmp_path / "d.json")
    with pytest.raises(ReadError, match="gone.json can't be read"):
        header.header(tmp_path / "d.json", columns=tmp_path / "gone.json")
