"""The commands that run a design, by the script at the top of the repository."""
from __future__ import annotations

import os
import resource
import signal
import subprocess
import sys
from pathlib import Path

import pytest
from test_cli import TOP, kit
from test_dump import COUNTER
from waiting import running, until

from scicos.program import Program

THERMOSTAT = str(TOP / "examples" / "thermostat" / "diagram.json")
ROOMS = str(TOP / "examples" / "thermostat" / "inputs.json")
BUTTON = str(TOP / "examples" / "push-button" / "diagram.json")
pytestmark = pytest.mark.usefixtures("program")


def test_a_table() -> None:
    ran = kit("simulate", THERMOSTAT, ROOMS, "--until", "130", "--signal", "boiler", "--signal", "kitchen")
    assert (ran.returncode, ran.stderr) == (0, "end until\n")
    assert [line.split() for line in ran.stdout.splitlines()] == [
        ["date", "event", "boiler", "kitchen"], ["0", "start", ".", "."], ["0", "tick", "0", "205"], ["60", "tick", "1", "200"],
        ["120", "tick", "1", "189"]]


def test_csv_in_and_out(tmp_path: Path) -> None:
    (tmp_path / "in.csv").write_text("button\n" + "1\n" * 4)
    ran = kit("simulate", BUTTON, str(tmp_path / "in.csv"), "--until", "15", "--signal", "button", "--signal", "presses",
              "--by", "tick", "-o", str(tmp_path / "out.csv"))
    assert (ran.returncode, ran.stdout, ran.stderr) == (0, "", "end until\n")
    assert (tmp_path / "out.csv").read_text() == "date,button,presses\n0,1,0\n5,1,0\n10,1,1\n15,1,1\n"
    ran = kit("simulate", BUTTON, str(tmp_path / "in.csv"), "--until", "100", "--signal", "presses", "--format", "csv")
    assert "the run stopped at date 20: button " in ran.stderr and "all 4 values of column 1 of in.csv" in ran.stderr
    assert ran.returncode == 6 and ran.stdout.endswith("10,tick,1\n15,tick,\n20,tick,\n")


def test_an_input_file(tmp_path: Path) -> None:
    (tmp_path / "in.csv").write_text("time,button\n0,1\n5,0\n")
    ran = kit("inputs", BUTTON, str(tmp_path / "in.csv"), "--ignore", "time", "-o", str(tmp_path / "in.json"))
    assert (ran.returncode, ran.stderr) == (0, "") and (tmp_path / "in.json").read_text() == "[[1,0]]\n"
    (tmp_path / "in.csv").write_text("button\n1\n256\n")
    ran = kit("inputs", BUTTON, str(tmp_path / "in.csv"), "-o", str(tmp_path / "in.json"))
    assert ran.returncode == 1 and "line 3 (row 2) of 'button' is 256" in ran.stderr and (tmp_path / "in.json").read_text() == "[[1,0]]\n"


@pytest.mark.parametrize("words, status, told", [
    (["simulate", THERMOSTAT, ROOMS], 2, "required: --until"),
    (["simulate", THERMOSTAT, ROOMS, "--until", "x"], 2, "invalid int value: 'x'"),
    (["simulate", THERMOSTAT, ROOMS, "--until", "1", "--events", "2000000"], 2, "compiled C"),
    (["simulate", THERMOSTAT, ROOMS, "--until", "1", "-o", "run.xls"], 2, "none of csv, npz and txt"),
    (["simulate", THERMOSTAT, ROOMS, "--until", "1", "--signal", "boilr"], 1, "did you mean 'boiler'"),
    (["simulate", THERMOSTAT, "--until", "1"], 1, "no values for the sensors 'kitchen' (column 1), 'study' (column 2)"),
    (["simulate", THERMOSTAT, "none.csv", "--until", "1"], 3, "none.csv can't be read"),
    (["simulate", THERMOSTAT, "none.json", "--until", "1"], 3, "none.json can't be read"),
    (["plot", THERMOSTAT, ROOMS, "--until", "1", "-o", "p.txt"], 2, "none of png"),
    (["plot", THERMOSTAT, ROOMS, "--until", "1", "--unit", "kitchen", "-o", "p.png"], 2, "as speed=0.1:rpm"),
    (["plot", THERMOSTAT, ROOMS, "--until", "1", "--tick", "x:s", "-o", "p.png"], 2, "and not 'x:s'"),
    (["dump", THERMOSTAT, ROOMS], 2, "either --until"),
    (["dump", THERMOSTAT, ROOMS, "--until", "1", "--tick", "2 s"], 2, "1, 10 or 100"),
    (["dump", THERMOSTAT, ROOMS, "--until", "-1"], 2, "from 0 to 4611686018427387904, and is -1"),
    (["dump", THERMOSTAT, ROOMS, "--until", "1", "--events", "1000001"], 2, "compiled C"),
    (["dump", THERMOSTAT, "--of", "none.vcd"], 3, "none.vcd can't be read"),
    (["waves", "none.vcd"], 3, "none.vcd can't be read"),
    (["waves", THERMOSTAT], 1, "line 1 is no line of a dump"),
])
def test_what_is_wrong(words: list[str], status: int, told: str, tmp_path: Path) -> None:
    ran = subprocess.run([str(TOP / "scicos-kit"), *words], cwd=tmp_path, capture_output=True, text=True, timeout=120)
    assert (ran.returncode, ran.stdout) == (status, "") and told in ran.stderr and "Traceback" not in ran.stderr
    assert list(tmp_path.iterdir()) == []


def test_no_program(tmp_path: Path) -> None:
    ran = kit("simulate", THERMOSTAT, ROOMS, "--until", "1", SCICOS=str(tmp_path / "none"))
    assert ran.returncode == 70 and ran.stderr.count("\n") == 1 and "SCICOS" in ran.stderr


def test_waves(tmp_path: Path) -> None:
    (tmp_path / "c.vcd").write_text(COUNTER)
    ran = kit("waves", "--only", "b9_1_1", str(tmp_path / "c.vcd"))
    assert (ran.returncode, ran.stdout) == (2, "") and "no signal 'b9_1_1': did you mean" in ran.stderr
    drawn, written = kit("waves", "--only", "b4_1_1", str(tmp_path / "c.vcd")), kit("waves", "--only", "b4_1_1", str(tmp_path / "c.vcd"), "-o",
                                                                                    str(tmp_path / "c.svg"))
    assert drawn.stdout == (tmp_path / "c.svg").read_text() and drawn.stdout.startswith("<svg") and written.stdout == ""


def test_dumps(tmp_path: Path, program: Program) -> None:
    (tmp_path / "own.vcd").write_bytes(program.ask("vcd", THERMOSTAT, ROOMS, 540, 100).out)
    ran, of = kit("dump", THERMOSTAT, ROOMS, "--until", "540", "--tick", "1 s"), kit("dump", THERMOSTAT, "--of", str(tmp_path / "own.vcd"), "--tick",
                                                                                     "1 s")
    assert ran.returncode == of.returncode == 0 and ran.stdout == of.stdout and "$scope module of_the_kitchen $end" in ran.stdout
    assert kit("dump", THERMOSTAT, ROOMS, "--until", "5400").returncode == 6
    other = kit("dump", BUTTON, "--of", str(tmp_path / "own.vcd"))
    assert (other.returncode, other.stdout) == (1, "") and "the dump of another diagram" in other.stderr


def test_a_plot(tmp_path: Path) -> None:
    pytest.importorskip("matplotlib")
    ran = kit("plot", THERMOSTAT, ROOMS, "--until", "540", "--signal", "kitchen", "--unit", "kitchen=0.1:°C", "-o", str(tmp_path / "p.svg"))
    assert (ran.returncode, ran.stderr) == (0, "") and "<svg" in (tmp_path / "p.svg").read_text()


def test_who_reads_has_gone() -> None:
    ran = subprocess.run(f"'{TOP}/scicos-kit' simulate '{TOP}/examples/first.json' --until 10000000 --events 20000 | head -1; echo "
                         f"${{PIPESTATUS[0]}}",
                         shell=True, executable="/bin/bash", capture_output=True, text=True, timeout=120)
    assert ran.stdout.split() == ["date", "event", "Modulo_Count", "2", "4"] and "Traceback" not in ran.stderr


def test_ctrl_c_leaves_nothing(tmp_path: Path) -> None:
    slow = tmp_path / "slow"
    slow.write_text(f"#!{sys.executable}\nimport os, sys, time\nif sys.argv[1] != 'simulate':\n    os.execv({os.environ.get('SCICOS', '')!r}, "
                    "sys.argv)\n"
                    f"open({str(tmp_path / 'pid')!r}, 'w').write(str(os.getpid()))\nprint('start', flush=True)\ntime.sleep(600)\n")
    slow.chmod(0o755)
    if not os.environ.get("SCICOS"):
        pytest.skip("the variable SCICOS names no program")
    temporary = tmp_path / "temporary"
    temporary.mkdir()
    words = [str(TOP / "scicos-kit"), "simulate", THERMOSTAT, "--until", "1", "-o", str(tmp_path / "run.csv"), str(tmp_path / "in.csv")]
    (tmp_path / "in.csv").write_text("kitchen,study\n1,2\n")
    pid = tmp_path / "pid"
    with running(words, env={**os.environ, "SCICOS": str(slow), "TMPDIR": str(temporary)}, stderr=subprocess.PIPE) as process:
        until(lambda: pid.exists() and pid.read_text(), process)
        process.send_signal(signal.SIGINT)
        said = process.communicate(timeout=60)[1]
    assert (process.returncode, said) == (130, "scicos-kit: ended by Ctrl-C\n")
    assert not (tmp_path / "run.csv").exists() and list(temporary.iterdir()) == []
    with pytest.raises(ProcessLookupError):
        os.kill(int(pid.read_text()), 0)


def test_a_disk_that_is_full_behind_some_lines(tmp_path: Path) -> None:
    words = [str(TOP / "scicos-kit"), "simulate", str(TOP / "examples" / "first.json"), "--until", "100000", "-o", "run.csv"]
    ran = subprocess.run(words, cwd=tmp_path, capture_output=True, text=True, timeout=120,
                         preexec_fn=lambda: resource.setrlimit(resource.RLIMIT_FSIZE, (20_000, 20_000)))
    assert ran.returncode == 4 and ran.stderr == f"scicos-kit simulate: {tmp_path}/run.csv can't be written: File too large\n"
    assert list(tmp_path.iterdir()) == []


def test_the_standard_library_is_enough(tmp_path: Path) -> None:
    blocked = "import sys\nfor name in ('numpy', 'pandas', 'matplotlib', 'rich'):\n    sys.modules[name] = None\n"
    blocked += "from scicos.cli import main\nsys.exit(main())\n"
    run = [sys.executable, "-c", blocked, "simulate", THERMOSTAT, ROOMS, "--until", "60", "--by", "tick", "--signal", "boiler"]
    ran = subprocess.run(run, capture_output=True, text=True, timeout=120, env={**os.environ, "PYTHONPATH": str(TOP / "python")})
    assert (ran.returncode, ran.stdout, ran.stderr) == (0, "date boiler\n   0      0\n  60      1\n", "end until\n")
    ran = subprocess.run([*run, "-o", "run.npz"], cwd=tmp_path, capture_output=True, text=True, timeout=120,
                         env={**os.environ, "PYTHONPATH": str(TOP / "python")})
    assert ran.returncode == 70 and "apt-get install python3-numpy" in ran.stderr and list(tmp_path.iterdir()) == []
