"""Finding and calling the program, and what its statuses become; what is due stands in docs/FORMAT.md."""
from __future__ import annotations

import os
import subprocess
import sys
from pathlib import Path

import pytest

from scicos import program as called
from scicos.errors import MissingError, ReadError
from scicos.program import Program, ProgramError, Refusal, Refused


def script(path: Path, text: str) -> str:
    """A stand-in for the program."""
    path.write_text(f"#!{sys.executable}\nimport sys, time\n{text}\n")
    path.chmod(0o755)
    return str(path)


def test_answers(program: Program, examples: Path) -> None:
    assert program.text("check", examples / "branches.json") == "ok 6 2 6 4\n"
    answer = program.ask("check", examples / "loop.json")
    assert (answer.out, answer.err, answer.status) == (b"", "refused 24 AlgebraicLoop at 3 1 1 3 4\n", 1)


def test_refusal_as_data(program: Program, examples: Path) -> None:
    with pytest.raises(Refused) as raised:
        program.text("check", examples / "loop.json")
    assert raised.value.refusal == Refusal(24, "AlgebraicLoop", (3,), (1, 1, 3, 4))
    assert str(raised.value.refusal) == "refused 24 AlgebraicLoop at 3 1 1 3 4"


def test_refusals_are_read() -> None:
    assert called.refusal_of("refused 17 TypeConflict at 7/3 2 1 3 4\n") == Refusal(17, "TypeConflict", (7, 3), (2, 1, 3, 4))
    assert called.refusal_of("refused 1 NotJson at -\n") == Refusal(1, "NotJson", None, ())
    assert called.refusal_of("refused 28 InputRange at 2 1 1 -129\n") == Refusal(28, "InputRange", (2,), (1, 1, -129))
    assert called.refusal_of("usage: scicos") is None


def test_a_missing_file_is_told_by_name(program: Program, examples: Path) -> None:
    with pytest.raises(ReadError, match="no-such.json can't be read: No such file") as raised:
        program.text("simulate", examples / "first.json", examples / "no-such.json", 1, 1)
    assert raised.value.status == 3


def test_other_statuses(tmp_path: Path) -> None:
    fake = Program(script(tmp_path / "fake", "sys.stderr.write('out of memory\\n'); sys.exit(5)"))
    with pytest.raises(ProgramError, match="status 5: there was no memory") as raised:
        fake.text("check", "d")
    assert raised.value.status == 5


def test_a_stream_that_is_left_ends_the_program(tmp_path: Path) -> None:
    fake = Program(script(tmp_path / "fake", "print('start', flush=True); print(flush=True); time.sleep(600)"))
    with pytest.raises(KeyboardInterrupt):
        with fake.stream("simulate") as stream:
            raise KeyboardInterrupt
    assert stream.process.returncode == -9


def test_pieces_end_with_lines(tmp_path: Path, monkeypatch: pytest.MonkeyPatch) -> None:
    monkeypatch.setattr(called, "CHUNK", 5)
    fake = Program(script(tmp_path / "fake", "sys.stdout.write('a longer line\\nab\\nc\\n\\nthe end')"))
    with fake.stream("simulate") as stream:
        pieces = list(stream.pieces())
    assert b"".join(pieces) == b"a longer line\nab\nc\n\nthe end"
    assert all(piece.endswith(b"\n") for piece in pieces[:-1]) and stream.status == 0


def test_the_program_is_found(tmp_path: Path, monkeypatch: pytest.MonkeyPatch) -> None:
    one, other = script(tmp_path / "one", ""), script(tmp_path / "scicos", "")
    monkeypatch.setattr(called, "TOP", tmp_path / "none")
    monkeypatch.setenv("PATH", str(tmp_path))
    monkeypatch.delenv("SCICOS", raising=False)
    assert called.find().path == other
    monkeypatch.setenv("SCICOS", one)
    assert called.find().path == one and called.find(other).path == other
    monkeypatch.setenv("SCICOS", str(tmp_path / "gone"))
    with pytest.raises(MissingError, match="SCICOS, .*gone, isn't there"):
        called.find()


def test_a_program_that_is_not_built(tmp_path: Path, monkeypatch: pytest.MonkeyPatch) -> None:
    monkeypatch.setattr(called, "TOP", tmp_path)
    monkeypatch.setenv("PATH", "")
    monkeypatch.delenv("SCICOS", raising=False)
    with pytest.raises(MissingError, match="no program `scicos` on PATH"):
        called.find()
    checkout = script(tmp_path / "scicos", "sys.stderr.write('scicos: ./prove builds it\\n'); sys.exit(70)")
    with pytest.raises(MissingError, match="^./prove builds it; or name a program in the variable SCICOS$") as raised:
        called.find()
    assert raised.value.status == 70
    (tmp_path / "bin").mkdir()
    other = script(tmp_path / "bin" / "scicos", "")
    monkeypatch.setenv("PATH", str(tmp_path / "bin"))
    assert called.find().path == other
    called.reason.cache_clear()
    script(tmp_path / "scicos", "")
    assert called.find().path == checkout
    called.reason.cache_clear()


@pytest.mark.parametrize("words", [["simulate", "counter.json", "--until", "10"], ["lint", "counter.json"], ["draw", "counter.json"]])
def test_a_program_that_is_another(words: list[str], examples: Path) -> None:
    """What another program answers can't be read: that is said in a sentence, with status 70."""
    ran = subprocess.run([str(examples.parent / "scicos-kit"), *words], cwd=examples, env={**os.environ, "SCICOS": "/bin/echo"},
                         capture_output=True, text=True, timeout=60)
    assert (ran.returncode, ran.stderr.count("\n")) == (70, 1) and "/bin/echo isn't scicos" in ran.stderr
