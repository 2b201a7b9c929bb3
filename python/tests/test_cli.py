"""The command line: what every subcommand has, and wrong words."""
from __future__ import annotations

import os
import re
import subprocess
from pathlib import Path

import pytest

from scicos import cli, commands

TOP = Path(__file__).resolve().parents[2]


def kit(*words: str, **changes: str) -> subprocess.CompletedProcess[str]:
    """A run of the script at the top of the repository."""
    return subprocess.run([str(TOP / "scicos-kit"), *words], capture_output=True, text=True, timeout=120, env={**os.environ, **changes})


def test_no_words_list_the_commands() -> None:
    ran = kit()
    assert ran.returncode == 0 and ran.stderr == ""
    listed = re.findall(r"^  (\S+)", ran.stdout, re.M)
    assert listed == commands.names() and "numbers" in listed


@pytest.mark.parametrize("name", commands.names())
def test_help_shows_an_example(name: str, capsys: pytest.CaptureFixture[str]) -> None:
    with pytest.raises(SystemExit) as ended:
        cli.main([name, "--help"])
    shown = capsys.readouterr().out
    assert ended.value.code == 0
    assert re.search(rf"^example:\n  scicos-kit {name}\b", shown, re.M)
    assert max(map(len, shown.splitlines())) <= 150


def test_wrong_words_end_with_2() -> None:
    for words, told in ((["numbrs"], "no command numbrs: did you mean numbers?"), (["x1"], "`scicos-kit` without words lists them"),
                        (["numbers"], "required: D"), (["numbers", "a", "b"], "unrecognized arguments: b")):
        ran = kit(*words)
        assert ran.returncode == 2 and told in ran.stderr and ran.stdout == "" and "Traceback" not in ran.stderr


def test_numbers_of_a_refused_diagram() -> None:
    ran = kit("numbers", str(TOP / "examples" / "loop.json"))
    assert (ran.returncode, ran.stdout) == (0, "1 1 EVTDLY_c\n2 2 Modulo_Count\n3 3 SUMMATION\n4 4 GAINBLK\n")


def test_files_that_cannot_be_read(tmp_path: Path) -> None:
    ran = kit("numbers", str(tmp_path / "none.json"))
    assert ran.returncode == 3 and ran.stderr.endswith("none.json can't be read: No such file or directory\n")
    (tmp_path / "text.json").write_text("text")
    ran = kit("numbers", str(tmp_path / "text.json"))
    assert ran.returncode == 1 and "text.json is no JSON" in ran.stderr


def test_a_name_that_is_no_text(tmp_path: Path) -> None:
    (tmp_path / "d.json").write_text('{"objs": [{"obj": "Block", "gui": "HALT_f", "name": "a\\ud800", "model": {"evtin": [1]}}]}')
    ran = kit("numbers", str(tmp_path / "d.json"))
    assert (ran.returncode, ran.stdout, ran.stderr) == (0, "1 1 HALT_f a\\ud800\n", "")


@pytest.mark.parametrize("unbuffered", ["", "1"])
def test_full_output(unbuffered: str) -> None:
    with open("/dev/full", "w") as full:
        ran = subprocess.run([str(TOP / "scicos-kit"), "numbers", str(TOP / "examples" / "loop.json")], stdout=full, stderr=subprocess.PIPE,
                             text=True, timeout=120, env={**os.environ, "PYTHONUNBUFFERED": unbuffered})
    assert (ran.returncode, ran.stderr) == (4, "scicos-kit: standard output: No space left on device\n")


def test_a_file_in_the_working_folder_shadows_nothing(tmp_path: Path) -> None:
    (tmp_path / "json.py").write_text("raise SystemExit('shadowed')")
    ran = subprocess.run([str(TOP / "scicos-kit"), "numbers", str(TOP / "examples" / "loop.json")], cwd=tmp_path, capture_output=True, text=True, timeout=120)
    assert ran.returncode == 0 and ran.stderr == ""


@pytest.mark.parametrize("words", [["lint", "first.json"], ["simulate", "first.json", "--until", "5"], ["--help"]])
def test_closed_output(words: list[str], examples: Path) -> None:
    shell = 'script=$1; shift; exec "$script" "$@" >&-'
    found = subprocess.run(["sh", "-c", shell, "sh", str(TOP / "scicos-kit"), *words], cwd=examples, capture_output=True, text=True, timeout=120)
    assert (found.returncode, found.stderr) == (4, "scicos-kit: standard output is closed\n")


def test_version(capsys: pytest.CaptureFixture[str]) -> None:
    assert cli.main(["--version"]) == 0
    assert re.fullmatch(r"scicos-kit \d+(\.\d+)+\n", capsys.readouterr().out)


def test_lint_of_several_files(examples: Path, capsys: pytest.CaptureFixture[str]) -> None:
    names = [str(examples / name) for name in ("first.json", "no-such.json", "counter.json")]
    assert cli.main(["lint", *names]) == 1
    told = capsys.readouterr()
    assert "first.json:" in told.out and "counter.json:" in told.out
    assert told.err == f"scicos-kit lint: {names[1]} can't be read: No such file or directory\n"
    assert cli.main(["lint", names[1]]) == 3
