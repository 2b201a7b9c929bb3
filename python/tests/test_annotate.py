"""The twin of the C with comments: without them it is `ccode`'s text, and each says what stands below it."""
import glob
import os
import re
from pathlib import Path

import pytest

from scicos.annotate import annotated, bare
from scicos.errors import ScicosError
from scicos.program import find

TOP = os.path.join(os.path.dirname(__file__), "..", "..")
DESIGNS = sorted(glob.glob(os.path.join(TOP, "examples", "*", "diagram.json")))


@pytest.mark.parametrize("path", DESIGNS, ids=[os.path.basename(os.path.dirname(it)) for it in DESIGNS])
def test_without_comments_it_is_the_c(path: str) -> None:
    twin = annotated(path)
    assert bare(twin) == find().text("ccode", path)
    comments = [line.strip() for line in twin.splitlines() if "/*" in line or "*/" in line]
    assert len(comments) > 5
    assert all(line.startswith("/* ") and line.endswith(" */") for line in comments)


def test_each_function_and_value_of_the_counter() -> None:
    lines = annotated(os.path.join(TOP, "examples", "counter.json")).splitlines()
    above = {line.strip(): lines[at - 1].strip() for at, line in enumerate(lines) if at}
    assert above["static void f3(void) {"] == "/* SUMMATION 3, object 3, counter.json:4 */"
    assert above["static void s0(void) {"] == "/* the reaction of start */"
    assert above["static void s1(void) {"] == "/* the reaction to the event of EVTDLY_c 1, activation output 1 */"
    told = "sci_val(INT64_C(4), INT64_C(1), INT64_C(1), v1[INT64_C(2)]);"
    assert above[told] == "/* DOLLAR_m 4, output 1, int32[1x1], element 1 */"
    at = lines.index("static int64_t v1[3];")
    assert lines[at - 3:at] == ["/* v1[0]: CONST_m 2, output 1, int32[1x1] */",
                                "/* v1[1]: SUMMATION 3, output 1, int32[1x1] */",
                                "/* v1[2]: DOLLAR_m 4, output 1, int32[1x1] */"]


def above_each_variable(path: str) -> dict[str, list[str]]:
    """The comments that stand above each variable, by its name."""
    found: dict[str, list[str]] = {}
    told: list[str] = []
    for line in annotated(path).splitlines():
        declared = re.match(r"static int64_t (\w+)", line)
        if declared:
            found[declared[1]] = told
        told = [*told, line.removeprefix("/* ").removesuffix(" */")] if line.startswith("/*") else []
    return found


@pytest.mark.parametrize("path", DESIGNS, ids=[os.path.basename(os.path.dirname(it)) for it in DESIGNS])
def test_each_function_and_variable_has_a_comment(path: str) -> None:
    assert not re.search(r"(?<! \*/\n)^(static int64_t|(static )?void \w+\(void\) \{)", annotated(path), re.M)
    assert all(above_each_variable(path).values())


def test_variables_of_a_design() -> None:
    found = above_each_variable(os.path.join(TOP, "examples", "elevator-door", "diagram.json"))
    assert found["v2"] == ["v2[0]: the state of controller.before (DOLLAR_m 5)", "v2[1]: the state of door.position (DOLLAR_m 35)"]
    assert found["v3"][1:] == ["v3[20]: controller.state (SELECT_m 21)"]
    assert found["v4"] == ["v4, by block: 1 where it is active in this reaction", "v4[20]: controller.state (SELECT_m 21)",
                           "v4[31]: controller.unless_opens (SWITCH2_m 32)", "v4[33]: controller.motor (SWITCH2_m 34)"]
    assert found["v5"][1:] == ["v5[7]: controller.which (ESELECT_f 8)", "v5[27]: controller.waits (IFTHEL_f 28)"]
    assert found["v6"][1:] == ["v6[0]: tick (EVTDLY_c 1), activation output 1", "v6[1]: controller.wait (EVTDLY_c 29), activation output 1"]
    assert len(found["v7"]) == len(found["t1"]) == len(found["b1"]) == len(found["d2"]) == 1


def test_variables_of_a_register_and_of_groups_of_sources(tmp_path: Path) -> None:
    clock = '{"obj": "Block", "gui": "EVTDLY_c", "model": {"evtin": [1], "evtout": [1], "ipar": [1], "firing": [0]}}'
    objects = [clock] * 17 + ['{"obj": "Block", "gui": "REGISTER", "model": {"evtin": [1], "dstate": [1, 2, 3],'
                              ' "in": [1], "intyp": [3], "out": [1], "outtyp": [3]}}',
                              '{"obj": "Link", "from": [17, 1, 0], "to": [18, 1, 1], "ct": [5, -1]}',
                              '{"obj": "Link", "from": [18, 1, 0], "to": [18, 1, 1], "ct": [1, 1]}']
    path = tmp_path / "groups.json"
    path.write_text('{"objs": [%s]}' % ",".join(objects))
    found = above_each_variable(str(path))
    assert found["v1"] == ["v1[0]: REGISTER 18, output 1, int32[1x1]"]
    assert found["v2"] == ["v2[0] to v2[2]: the state of REGISTER 18"]
    assert found["v6"][17] == "v6[16]: EVTDLY_c 17, activation output 1" and len(found["v6"]) == 18
    assert len(found["v8"]) == len(found["v9"]) == 1
    assert bare(annotated(str(path))) == find().text("ccode", str(path))


def test_names_and_places_of_a_design() -> None:
    twin = annotated(os.path.join(TOP, "examples", "thermostat", "diagram.json"))
    functions = re.findall(r"^/\* (\S+) \(\w+ (\d+)\), object ([0-9/]+), design\.py:\d+ \*/\nstatic void f(\d+)", twin, re.M)
    assert len(functions) == len(re.findall(r"^static void f", twin, re.M)) == 14
    assert all(number == told for _, told, _, number in functions)
    assert functions[6] == ("of_the_kitchen.unless_warm", "7", "4/6", "7")


def test_a_name_ends_no_comment(tmp_path: Path) -> None:
    path = tmp_path / "odd.json"
    path.write_text('{"objs": [{"obj": "Block", "gui": "CONST_m", "name": "*/ int x; /*",'
                    ' "model": {"out": [1], "outtyp": [3], "ipar": [1]}}]}')
    twin = annotated(path)
    assert "/* * / int x; / * (CONST_m 1), object 1, odd.json:1 */" in twin.splitlines()
    assert bare(twin) == find().text("ccode", str(path))


def test_a_refused_diagram_has_no_twin() -> None:
    with pytest.raises(ScicosError, match="loop"):
        annotated(os.path.join(TOP, "examples", "loop.json"))
