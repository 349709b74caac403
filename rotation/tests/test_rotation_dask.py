"""Dask: a real scheduler and two workers, one of which dies or has other KEKs. Ports are chosen by the system, and
every process is ended by its id."""

import json
import os
import pathlib
import subprocess
import sys

import pytest

pytest.importorskip(
    "distributed", reason="no distributed (apt-get install python3-distributed)"
)

from rotation_help import (  # noqa: E402
    KEK,
    end,
    fill,
    left_over,
    lines_under,
    make_keys,
    rotate,
    secrets_in,
    start,
    state,
    wait_for,
)

KEYS = [make_keys(20, seed) for seed in range(40)]
SLOW = f"""
import sys, time
sys.path.insert(0, {os.path.dirname(os.path.abspath(__file__))!r})
from keywrap import _many
from rotation_help import before_each_key
_many.rewrap_slots = before_each_key(lambda text: time.sleep(0.005))
"""


class Cluster:
    """The processes of a scheduler and its workers, and their logs."""

    def __init__(self, directory):
        self.directory = directory
        self.processes = []
        (directory / "slow.py").write_text(SLOW)
        file = directory / "scheduler"
        address = ["--host", "tcp://127.0.0.1", "--port", "0"]
        self.start("scheduler", *address, "--scheduler-file", file)
        wait_for(lambda: file.exists() and file.read_text().endswith("}"))
        self.address = json.loads(file.read_text())["address"]

    def start(self, what, *words, wrapper=()):
        module = f"distributed.cli.dask_{what}"
        python = [sys.executable, "-B", "-m", *wrapper]
        command = [*python, module, "--no-dashboard", *map(str, words)]
        number = len(self.processes)
        env = {**os.environ, "DASK_DISTRIBUTED__SCHEDULER__WORKER_TTL": "4s"}
        with open(self.directory / f"log.{number}", "wb") as log:
            process = subprocess.Popen(
                command, stdout=log, stderr=log, cwd=self.directory, env=env
            )
        self.processes.append(process)

    def add_worker(self, *wrapper):
        """Starts a worker without a nanny, and waits until the scheduler knows it."""
        number = len(self.processes)
        self.start(
            "worker",
            self.address,
            "--nthreads",
            "1",
            "--no-nanny",
            "--host",
            "127.0.0.1",
            "--local-directory",
            self.directory / f"space{number}",
            "--preload",
            self.directory / "slow.py",
            wrapper=wrapper,
        )
        wait_for(
            lambda: b"Registered to" in (self.directory / f"log.{number}").read_bytes()
        )
        return self.processes[-1]

    def end(self):
        for process in self.processes:
            process.kill()
            process.wait()
        logs = b"".join(path.read_bytes() for path in self.directory.glob("log.*"))
        assert logs
        assert secrets_in(logs) == []


@pytest.fixture
def cluster(tmp_path):
    (tmp_path / "cluster").mkdir()
    started = Cluster(tmp_path / "cluster")
    try:
        yield started
    finally:
        started.end()


@pytest.fixture
def store(tmp_path):
    fill(tmp_path / "store", KEYS)
    return tmp_path / "store"


class TestDask:
    def test_workers_do_the_units(self, cluster, store):
        cluster.add_worker()
        cluster.add_worker()
        done = rotate("--dask", cluster.address, "--report", "report", store)
        assert done.status == 0, done
        assert done.counts["rewrapped"] == 20 * 40, done
        assert {*state(store, KEYS)} == {"new"}, done
        assert secrets_in(pathlib.Path("report").read_bytes()) == []
        assert rotate("--verify", "--dask", cluster.address, store) == 0
        (store / "7").write_bytes(lines_under(KEK, KEYS[7]))
        assert (
            rotate("--verify", "--dask", cluster.address, store) == 5
        )  # No answer is from before.

    def test_a_worker_that_dies(self, cluster, store):
        worker = cluster.add_worker()
        cluster.add_worker()
        running = start("--dask", cluster.address, store)
        wait_for(lambda: "new" in state(store, KEYS))
        worker.kill()
        done = end(running)
        assert done.status in (0, 6), done
        assert rotate("--dask", cluster.address, store) == 0
        assert {*state(store, KEYS)} == {"new"}
        assert left_over(store) == []

    def test_a_worker_with_other_keks(self, cluster, store, tmp_path):
        """The KEK files are read on the machine of the worker. Here another file system hides them."""
        if subprocess.run(["unshare", "-m", "true"], capture_output=True).returncode:
            pytest.skip("unshare is not allowed here")
        (tmp_path / "elsewhere").write_text("77" * 16)
        hidden = f"mount --bind {tmp_path / 'elsewhere'} {tmp_path / 'new-kek.hex'} && exec \"$@\""
        (tmp_path / "cluster/run.py").write_text(
            f"""import os, sys
os.execvp('unshare', ['unshare', '-m', 'sh', '-c', {hidden!r}, 'sh', sys.executable, '-B', '-m', *sys.argv[1:]])"""
        )
        cluster.add_worker("run")
        done = rotate("--dask", cluster.address, store)
        assert done.status == 3, done
        assert done.has("not those that the rotation began with"), done
        assert {*state(store, KEYS)} == {"old"}

    def test_no_scheduler(self, store):
        assert rotate("--dask", "tcp://127.0.0.1:1", store, timeout=100) == 6
        assert {*state(store, KEYS)} == {"old"}
