"""Sweeps on a cluster of dask.distributed: one of two workers on this machine."""
from __future__ import annotations

import os
import signal
import socket
import subprocess
import sys
from collections.abc import Iterator
from pathlib import Path
from typing import Any

import pytest
from sweeping import ROWS, due, written
from test_cli import TOP
from test_sweep_journal import counting
from waiting import running

from scicos import sweep_workers
from scicos.errors import MissingError
from scicos.program import Program
from scicos.sweep import sweep

distributed = pytest.importorskip("distributed")
pytestmark = pytest.mark.longest(240)
GAINS = [1, 2]
PATIENCE = 60.0  # seconds in which a cluster of one worker has to answer
TRY = """
import distributed
if __name__ == "__main__":
    with distributed.LocalCluster(n_workers=1, threads_per_worker=1, dashboard_address=None) as cluster, distributed.Client(cluster) as client:
        assert client.submit(int, "5").result() == 5
"""


def wrong(folder: Path) -> str:
    """What keeps a cluster on this machine from working, if anything: it is tried in another process, which can be ended."""
    try:
        with socket.create_server(("127.0.0.1", 0)) as server, socket.create_connection(server.getsockname()[:2], timeout=5):
            pass
    except OSError as error:
        return f"127.0.0.1 can't be reached: {error}"
    script, said = folder / "try.py", folder / "said"
    script.write_text(TRY)
    with open(said, "wb") as file, running([sys.executable, str(script)], cwd=folder, stdin=subprocess.DEVNULL, stdout=file, stderr=file) as process:
        try:
            status = process.wait(PATIENCE)
        except subprocess.TimeoutExpired:
            return f"a cluster of one worker doesn't answer in {PATIENCE:g} seconds"
    return "" if status == 0 else "a cluster of one worker ends with: " + " ".join(said.read_text(errors="replace").split())[-300:]


@pytest.fixture(scope="module")
def cluster(program: Program, tmp_path_factory: pytest.TempPathFactory) -> Iterator[Any]:
    """A cluster of two workers, which find the program by the variable SCICOS; the tests use it up in their order."""
    found = wrong(tmp_path_factory.mktemp("cluster"))
    if found:
        pytest.skip(f"a cluster that works here: distributed is installed, and {found}")
    with pytest.MonkeyPatch.context() as patch:
        patch.setenv("SCICOS", program.path)
        patch.setenv("PYTHONPATH", str(TOP / "python"))
        with distributed.LocalCluster(n_workers=2, threads_per_worker=1, dashboard_address=None, silence_logs=50) as cluster:
            yield cluster


def rows_due(count: int) -> list[tuple[str, list[Any]]]:
    """How each run ends, and its row."""
    return [(end, values) for _, _, end, values, _ in due(GAINS, count)]


def test_a_cluster_of_two_workers(cluster: Any, tmp_path: Path, program: Program) -> None:
    design, paths = written(tmp_path, 4)
    csv = tmp_path / "table.csv"
    (tmp_path / "wrong.json").write_text("[[300]]")
    (tmp_path / "hole.csv").write_text("wanted\n1\n\n2\n")
    words = [str(TOP / "scicos-kit"), "sweep", str(design), "--set", "gain=1,2", "--inputs", *map(str, paths), "wrong.json", "hole.csv", "--until", "60",
             *[word for row in ROWS for word in ("--row", row)], "-o", str(csv), "--cluster", cluster.scheduler_address, "--keep", "traces"]
    ran = subprocess.run(words, cwd=tmp_path, env={**os.environ, "SCICOS": program.path}, capture_output=True, text=True, timeout=600)
    assert (ran.returncode, ran.stdout, ran.stderr.count("\n")) == (0, "", 1) and ran.stderr.startswith("12 runs: ")
    here = subprocess.run([word for word in words[:-4] if word != str(csv) and word != "-o"] + ["-o", str(tmp_path / "here.csv")], cwd=tmp_path,
                          env={**os.environ, "SCICOS": program.path}, capture_output=True, text=True, timeout=600)
    assert here.returncode == 0 and csv.read_text() == (tmp_path / "here.csv").read_text()
    lines = csv.read_text().splitlines()
    assert "wrong.json has 300 as value 1" in lines[5] and "hole.csv: line 3" in lines[6]
    traces = sorted(path.name for path in (tmp_path / "traces").iterdir())
    assert traces == sorted(f"{run}.txt" for run in (1, 2, 3, 4, 7, 8, 9, 10)) and "\nend until\n" in (tmp_path / "traces" / "1.txt").read_text()


def test_workers_without_the_program(cluster: Any, tmp_path: Path, program: Program) -> None:
    design, paths = written(tmp_path, 1)
    with distributed.Client(cluster) as client:
        client.run(lambda: os.environ.update(SCICOS="/none/scicos"))
        try:
            with pytest.raises(MissingError, match="the program of the variable SCICOS, /none/scicos, isn't there"):
                sweep(design, inputs=paths, until=60, rows=ROWS, cluster=client)
        finally:
            client.run(lambda path: os.environ.update(SCICOS=path), program.path)


def test_a_worker_of_the_cluster_dies(cluster: Any, tmp_path: Path, program: Program) -> None:
    design, paths = written(tmp_path, 10)
    slow = counting(tmp_path, program, "sleep 0.1")
    killed: list[int] = []

    def kill(done: int, total: int) -> None:
        if done == 4 and not killed:
            killed.extend(worker.pid for worker in list(cluster.workers.values())[:1])
            os.kill(killed[0], signal.SIGKILL)
    with distributed.Client(cluster) as client:
        found = sweep(design, inputs=paths, parameters={"gain": GAINS}, until=60, rows=ROWS, program=slow, cluster=client, progress=kill)
    assert killed and [(row.end, list(row.values)) for row in found.rows] == rows_due(10)


def test_no_worker_is_left(cluster: Any, tmp_path: Path, program: Program, monkeypatch: pytest.MonkeyPatch) -> None:
    monkeypatch.setattr(sweep_workers, "PATIENCE", 1.0)
    design, paths = written(tmp_path, 10)

    def leave(done: int, total: int) -> None:
        if done == 4:
            cluster.scale(0)
    given: dict[str, Any] = {"inputs": paths, "parameters": {"gain": GAINS}, "until": 60, "rows": ROWS, "path": tmp_path / "table.csv"}
    slow = counting(tmp_path, program, "sleep 0.1")
    with pytest.raises(MissingError, match="the cluster has no worker: begin its workers again; a journal keeps the runs that are done"):
        sweep(design, program=slow, cluster=cluster.scheduler_address, progress=leave, **given)
    kept = (tmp_path / "table.csv.journal").read_text()
    assert kept.endswith("\n") and 4 <= kept.count("\n") - 2 < 20
    found = sweep(design, program=program, **given)
    assert found.again == kept.count("\n") - 2 and [(row.end, list(row.values)) for row in found.rows] == rows_due(10)


def test_the_scheduler_goes(cluster: Any, tmp_path: Path, program: Program, monkeypatch: pytest.MonkeyPatch) -> None:
    monkeypatch.setattr(sweep_workers, "PATIENCE", 1.0)
    design, paths = written(tmp_path, 1)
    cluster.close()
    with pytest.raises(MissingError, match="doesn't answer"):
        sweep(design, inputs=paths, until=60, rows=ROWS, program=program, cluster=cluster.scheduler_address)
