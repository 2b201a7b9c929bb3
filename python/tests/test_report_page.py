"""The page of a report in a browser, which clicks, turns the wheel, drags, types and touches; what it shows is held against `vcdat`."""
from __future__ import annotations

import contextlib
import json
import shutil
from collections.abc import Iterator
from pathlib import Path

import pytest
from browsing import Browser, Useless, browser, found
from conftest import TOP

import scicos as s
from scicos.columns import of_design
from scicos.errors import MissingError
from scicos.flat import read
from scicos.program import Program, find
from scicos.report import report

pytestmark = pytest.mark.skipif(not found(), reason="no chromium is installed (apt-get install chromium)")
EXAMPLES = TOP / "examples"
DESIGN, INPUTS = EXAMPLES / "thermostat" / "diagram.json", EXAMPLES / "thermostat" / "inputs.json"
FLAT = read(DESIGN)
NAME = FLAT.name
ROWS = "[...document.querySelectorAll('#rows .row')]"
VALUES = f"Object.fromEntries({ROWS}.map(row => [row.querySelector('.name').textContent, row.querySelector('.value').textContent]))"
CHOSEN = f"{ROWS}.filter(row => row.classList.contains('chosen')).map(row => row.querySelector('.name').textContent)"
SHIFT = 8


@pytest.fixture(scope="module")
def chromium() -> Iterator[Browser]:
    """A browser; where it draws nothing on this machine, the tests are skipped."""
    with contextlib.ExitStack() as stack:
        try:
            one = stack.enter_context(browser())
        except Useless as useless:
            pytest.skip(str(useless))
        yield one


@pytest.fixture(scope="module")
def tool() -> Program:
    """The program."""
    try:
        return find()
    except MissingError as error:
        pytest.skip(str(error))


@pytest.fixture(scope="module")
def page(tool: Program, tmp_path_factory: pytest.TempPathFactory) -> Path:
    """The page of the thermostat."""
    path = tmp_path_factory.mktemp("page") / "page.html"
    path.write_text(report(DESIGN, INPUTS, until=540, events=100, program=tool).text, "utf-8")
    return path


@pytest.fixture(scope="module")
def dump(tool: Program, tmp_path_factory: pytest.TempPathFactory) -> Path:
    """The program's dump of the same run."""
    path = tmp_path_factory.mktemp("dump") / "run.vcd"
    path.write_bytes(tool.ask("vcd", DESIGN, INPUTS, 540, 100).out)
    return path


def due(tool: Program, dump: Path, tick: int) -> dict[str, str]:
    """The values at a tick by `vcdat`, by name."""
    names = {column.code: column.name for column in of_design(DESIGN, tool).all}
    return {names[code]: value for code, value in (line.split() for line in tool.text("vcdat", dump, tick).splitlines())}


def held(chromium: Browser, tool: Program, dump: Path) -> int:
    """The tick of the cursor; the values beside the waveforms and in the list are those of `vcdat` there."""
    tick = int(chromium.look("document.querySelector('#tick').value"))
    right, shown = due(tool, dump, tick), chromium.look(VALUES)
    assert len(set(shown) & set(right)) > 5
    assert {name: value for name, value in shown.items() if name in right} == {name: right[name] for name in shown if name in right}
    listed = chromium.look("Object.fromEntries([...document.querySelectorAll('#signals li')].map(row => "
                           "[row.querySelector('.name').textContent, row.querySelector('.value').textContent]))")
    assert {name: value for name, value in listed.items() if name in right} == right
    return tick


def window(chromium: Browser) -> tuple[float, float]:
    """The ticks in view."""
    first, last = chromium.look("[document.querySelector('#view').dataset.from, document.querySelector('#view').dataset.to].map(Number)")
    return first, last


def canvas(chromium: Browser, share: float) -> tuple[float, float]:
    """A point on the first waveform, at a share of its width."""
    left, top, width, height = chromium.box("#rows .row canvas")
    return left + width * share, top + height / 2


def test_the_cursor_has_the_values_of_vcdat(chromium: Browser, page: Path, tool: Program, dump: Path) -> None:
    chromium.open(page)
    ticks = set()
    for share in (0.01, 0.23, 0.5, 0.77, 0.95):
        chromium.click(canvas(chromium, share))
        ticks.add(held(chromium, tool, dump))
    assert len(ticks) == 5 and max(ticks) > 500
    for tick in ("0", "59", "60", "121", "540", "100000"):
        chromium.look(f"(() => {{ const box = document.querySelector('#tick'); box.value = {tick!r}; box.onchange(); }})()")
        chromium.settle()
        assert held(chromium, tool, dump) == int(tick)
    assert chromium.faults() == []


def test_the_wheel_zooms_and_dragging_moves(chromium: Browser, page: Path, tool: Program, dump: Path) -> None:
    chromium.open(page)
    whole, at = window(chromium), canvas(chromium, 0.5)
    assert whole == (0, 567)
    chromium.wheel(at, -200)
    chromium.wheel(at, -200)
    near = window(chromium)
    assert near[1] - near[0] < 0.6 * 567 and near[0] < 567 / 2 < near[1]
    assert abs((near[0] + near[1]) / 2 - 567 / 2) < 10  # about the pointer
    chromium.drag(at, (at[0] - 100, at[1]))
    moved = window(chromium)
    assert moved[0] > near[0] and moved[1] - moved[0] == pytest.approx(near[1] - near[0])
    width = chromium.look("document.querySelector('#scale').clientWidth")
    assert moved[0] - near[0] == pytest.approx(100 / width * (near[1] - near[0]), rel=0.02)
    assert chromium.look("document.querySelector('#cursor').hidden")  # dragging sets no cursor
    chromium.click(canvas(chromium, 0.4))
    tick = held(chromium, tool, dump)
    assert moved[0] < tick < moved[1]
    chromium.click(chromium.middle("#zoom-all"))
    assert window(chromium) == whole and chromium.faults() == []


def test_keys(chromium: Browser, page: Path, tool: Program, dump: Path) -> None:
    chromium.open(page)
    chromium.look("document.querySelector('#view').focus()")
    for key, tick in (("Home", 0), ("ArrowRight", 0), ("ArrowRight", 60), ("ArrowRight", 120), ("ArrowLeft", 60), ("End", 540)):
        chromium.key(key)
        at = int(chromium.look("document.querySelector('#tick').value"))
        assert at == tick, key
    chromium.key("+")
    chromium.key("+")
    near = window(chromium)
    assert near[1] - near[0] == pytest.approx(567 / 4) and near[0] < 540 < near[1]
    chromium.key("ArrowLeft", SHIFT)
    assert window(chromium)[0] == pytest.approx(near[0] - 567 / 40)
    chromium.key("m")
    chromium.key("ArrowLeft")
    assert "60 ticks before the second cursor" in chromium.look("document.querySelector('#readout').textContent")
    chromium.key("0")
    assert window(chromium) == (0, 567) and chromium.faults() == []


def test_fingers_move_and_zoom(chromium: Browser, page: Path) -> None:
    chromium.open(page)
    chromium.ask("Emulation.setTouchEmulationEnabled", enabled=True, maxTouchPoints=2)
    (x, y), whole = canvas(chromium, 0.5), window(chromium)
    chromium.touch("touchStart", (x - 50, y), (x + 50, y))
    chromium.touch("touchMove", (x - 100, y), (x + 100, y))
    chromium.touch("touchMove", (x - 150, y), (x + 150, y))
    chromium.touch("touchEnd")
    near = window(chromium)
    assert near[1] - near[0] < 0.5 * (whole[1] - whole[0])
    chromium.touch("touchStart", (x, y))
    chromium.touch("touchMove", (x + 40, y))
    chromium.touch("touchMove", (x + 80, y))
    chromium.touch("touchEnd")
    assert window(chromium)[0] < near[0]
    chromium.ask("Emulation.setTouchEmulationEnabled", enabled=False)


def test_a_block_is_clicked(chromium: Browser, page: Path) -> None:
    chromium.open(page)
    if not chromium.look("document.querySelector('.picture svg') !== null"):
        pytest.skip("Graphviz isn't installed")
    chromium.click(chromium.middle('figure.now .picture [data-block="2"]'))
    text = chromium.look("document.querySelector('#block').innerText")
    for part in ("kitchen", "SENSOR", "column\n1", FLAT.where((2,)), NAME(6), "int16[1x1]", "10 times"):
        assert part in text, part
    assert chromium.look(CHOSEN) == ["kitchen"]
    chromium.click(chromium.middle('figure.now .picture [data-level="level-4"]'))
    assert chromium.look("document.querySelector('figure.now').id") == "level-4"
    chromium.click(chromium.middle('figure.now .picture [data-block="4"]'))
    assert chromium.look("document.querySelector('#block h2').textContent") == NAME(4)
    assert chromium.look(CHOSEN) == [NAME(4)]  # which was not shown before, as it never changes
    chromium.click(chromium.middle('.levels [data-level="flat"]'))
    chromium.click(chromium.middle('#flat [data-block="14"]'))
    assert chromium.look("document.querySelector('#block h2').textContent") == "boiler"
    chromium.key("Escape")
    assert chromium.look("document.querySelector('#block').hidden && document.querySelectorAll('.chosen').length === 0")
    assert chromium.faults() == []


def test_a_block_is_chosen_by_keys(chromium: Browser, page: Path) -> None:
    chromium.open(page)
    chromium.look("document.querySelector('#block-table tbody tr:nth-child(14) button').focus()")
    chromium.key("Enter")
    assert chromium.look("document.querySelector('#block h2').textContent") == NAME(14)
    assert chromium.look("document.activeElement.id") == "block"
    chromium.key("Escape")
    assert chromium.look("document.activeElement.textContent") == NAME(14) and chromium.look("document.querySelector('#block').hidden")
    if chromium.look("document.querySelector('.picture svg') !== null"):
        chromium.look("document.querySelector('figure.now .picture [data-level]').focus()")
        chromium.key("Enter")
        assert chromium.look("document.querySelector('figure.now').id") == "level-4"
        chromium.look("document.querySelector('figure.now .picture [data-block=\"4\"]').focus()")
        chromium.key("Enter")
        assert chromium.look("document.querySelector('#block h2').textContent") == NAME(4)


def test_along_reactions_events_of_one_date_are_apart(chromium: Browser, tool: Program, tmp_path: Path) -> None:
    folder, path = EXAMPLES / "watchdog", tmp_path / "page.html"
    path.write_text(report(folder / "diagram.json", folder / "inputs.json", until=300, program=tool).text, "utf-8")
    trace = tool.text("simulate", folder / "diagram.json", folder / "inputs.json", 300, 1000).splitlines()
    dates = [int(line.split()[1]) for line in trace if line.startswith("event")]
    chromium.open(path, "#axis=reaction")
    assert window(chromium) == (0, len(dates) + 1)
    chromium.look("document.querySelector('#view').focus()")
    chromium.key("Home")
    for date in dates:
        chromium.key("ArrowRight")
        assert int(chromium.look("document.querySelector('#tick').value")) == date
    assert chromium.faults() == []


def test_a_stop_is_shown_where_it_is(chromium: Browser, tool: Program, tmp_path: Path) -> None:
    path = tmp_path / "stop.html"
    path.write_text(report(EXAMPLES / "tags.json", EXAMPLES / "readings.json", until=30, program=tool).text, "utf-8")
    chromium.open(path)
    told = chromium.look("document.querySelector('#readout').textContent")
    assert told.startswith("tick 30") and "here the run stopped" in told
    assert "The run stopped at date 30: SENSOR 2" in chromium.look("document.querySelector('[role=alert]').innerText")


def test_runs_of_start_alone_and_of_dates_far_away(chromium: Browser, tool: Program, tmp_path: Path) -> None:
    path = tmp_path / "page.html"
    path.write_text(report(EXAMPLES / "counter.json", until=0, events=0, program=tool).text, "utf-8")
    chromium.open(path)
    chromium.look("document.querySelector('#view').focus()")
    for key in ("Home", "+", "-", "n", "p", "End", "0"):
        chromium.key(key)
    assert chromium.faults() == [] and chromium.look("document.querySelector('#tick').value") == "0"
    with s.Diagram("far") as design:
        far = s.clock(2**31 - 1, first=2**31 - 1, name="far")
        count = s.counter(100_000, on=far, name="count")
    assert count is not None
    path.write_text(report(design, until=2**62, events=4200, program=tool).text, "utf-8")
    chromium.open(path)
    chromium.look("document.querySelector('#view').focus()")
    chromium.key("End")
    assert chromium.look("document.querySelector('#tick').value") == str(4200 * (2**31 - 1))
    assert chromium.look(VALUES)["count"] == "4199"


def test_filters(chromium: Browser, page: Path) -> None:
    chromium.open(page)
    for field, words, count in (("#filter", "KITCHEN warm", "1 of 14"), ("#block-filter", "switch2_m 210", "2 shown")):
        chromium.look(f"(() => {{ const box = document.querySelector('{field}'); box.value = {words!r}; box.oninput(); }})()")
        shown = "#found" if field == "#filter" else "#block-count"
        assert chromium.look(f"document.querySelector('{shown}').textContent") == count
    assert chromium.look("[...document.querySelectorAll('#block-table tbody tr:not([hidden]) th')].map(cell => cell.textContent)") == [
        NAME(7), NAME(12)]
    chromium.click(chromium.middle("#hide-all"))
    chromium.click(chromium.middle("#signals input"))
    assert chromium.look(VALUES) == {NAME(7): ""}


def test_a_view_is_a_link(chromium: Browser, page: Path, tool: Program, dump: Path) -> None:
    chromium.open(page, "#tick=200&from=100&to=300&block=14")
    assert window(chromium) == (100, 300) and held(chromium, tool, dump) == 200
    assert chromium.look("document.querySelector('#block h2').textContent") == "boiler"
    chromium.until("location.hash.includes('show=boiler')")
    chromium.open(page, chromium.look("location.hash"))
    assert window(chromium) == (100, 300) and held(chromium, tool, dump) == 200


@pytest.mark.parametrize("dark", [False, True])
@pytest.mark.parametrize("width", [360, 1400])
def test_light_and_dark_wide_and_narrow(chromium: Browser, page: Path, dark: bool, width: int) -> None:
    chromium.ask("Emulation.setEmulatedMedia", features=[{"name": "prefers-color-scheme", "value": "dark" if dark else "light"}])
    chromium.open(page, width=width)
    assert chromium.look("document.documentElement.scrollWidth") <= width
    red, green, blue = map(int, chromium.look("getComputedStyle(document.body).backgroundColor").strip("rgb()").split(",")[:3])
    assert (red + green + blue > 384) != dark
    chromium.ask("Emulation.setEmulatedMedia", features=[])


def test_a_refused_design(chromium: Browser, tool: Program, tmp_path: Path) -> None:
    path = tmp_path / "loop.html"
    path.write_text(report(EXAMPLES / "loop.json", program=tool).text, "utf-8")
    chromium.open(path)
    assert "An algebraic loop" in chromium.look("document.querySelector('[role=alert]').innerText")
    blamed = chromium.look("[...document.querySelectorAll('figure.now .node.blamed')].map(node => node.dataset.block)")
    assert chromium.look("getComputedStyle(document.querySelector('figure.now')).display") == "block"
    assert blamed in ([], ["3", "4"]) and chromium.faults() == []
    if blamed:
        line = chromium.look("getComputedStyle(document.querySelector('.node.blamed [stroke=black]')).stroke")
        assert line == "rgb(179, 38, 30)"


def test_without_dot_blocks_are_chosen_in_lists(chromium: Browser, tool: Program, tmp_path: Path, monkeypatch: pytest.MonkeyPatch) -> None:
    monkeypatch.setattr(shutil, "which", lambda name: None)
    (tmp_path / "lists.html").write_text(report(DESIGN, INPUTS, until=540, program=tool).text, "utf-8")
    chromium.open(tmp_path / "lists.html")
    chromium.click(chromium.middle('figure.now .objects [data-level="level-4"]'))
    assert chromium.look("document.querySelector('figure.now').id") == "level-4"
    chromium.click(chromium.middle('figure.now .objects [data-block="6"]'))
    assert chromium.look("document.querySelector('#block h2').textContent") == NAME(6) and chromium.look(CHOSEN) == [NAME(6)]
    for size in ("#larger", "#smaller", "#fit"):
        chromium.click(chromium.middle(size))
    assert chromium.faults() == []


@pytest.mark.longest(400)
def test_a_million_values(chromium: Browser, tool: Program, tmp_path: Path) -> None:
    design = json.loads((EXAMPLES / "first.json").read_text())
    design["objs"][0]["model"]["ipar"] = [1]
    (tmp_path / "many.json").write_text(json.dumps(design))
    path = tmp_path / "many.html"
    path.write_text(report(tmp_path / "many.json", until=2_000_000, events=1_000_000, program=tool).text, "utf-8")
    assert path.stat().st_size < 6_000_000
    chromium.open(path)
    chromium.look("document.querySelector('#view').focus()")
    took = chromium.look("""(async () => {
        const times = [];
        for (const step of ['#zoom-in', '#zoom-in', '#zoom-out', '#zoom-all']) {
            const begun = performance.now();
            document.querySelector(step).click();
            await new Promise(done => requestAnimationFrame(() => requestAnimationFrame(done)));
            times.push(performance.now() - begun);
        }
        return Math.min(...times);
    })()""")
    assert took < 2000  # milliseconds, on a machine that may be slow and busy
    for tick in (0, 9, 654_321, 999_999):
        chromium.look(f"(() => {{ const box = document.querySelector('#tick'); box.value = '{tick}'; box.onchange(); }})()")
        chromium.settle()
        assert chromium.look(VALUES)["Modulo_Count 2"] == str(tick % 10)
