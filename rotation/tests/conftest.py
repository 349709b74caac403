"""Fixtures of the tests of keywrap-rotate."""

import pytest
from mariadb_server import MariadbServer, mariadb_programs
from postgresql_server import Server, server_programs


@pytest.fixture(autouse=True)
def keks(tmp_path, monkeypatch):
    """Every test runs in a directory with the files of both KEKs, which variables name."""
    from rotation_help import set_keks  # without cryptography the test is skipped

    monkeypatch.chdir(tmp_path)
    set_keks(tmp_path, monkeypatch)
    return tmp_path


def running(server_class, programs, name, package, module):
    """A server for the session, which ends with it. Skips without its programs or the Python module for it."""
    if not programs():
        pytest.skip(f"no {name} server (apt-get install {package})")
    reason = f"no {module} (apt-get install python3-{module})"
    pytest.importorskip(module, reason=reason)
    server = server_class()
    yield server
    server.end()


@pytest.fixture(scope="session")
def started_server():
    yield from running(Server, server_programs, "PostgreSQL", "postgresql", "psycopg")


@pytest.fixture
def server(started_server, monkeypatch):
    """A PostgreSQL server, which libpq's variables name."""
    for name, value in started_server.environment.items():
        monkeypatch.setenv(name, value)
    return started_server


@pytest.fixture(scope="session")
def started_mariadb():
    yield from running(
        MariadbServer, mariadb_programs, "MariaDB", "mariadb-server", "pymysql"
    )


@pytest.fixture
def mariadb(started_mariadb, tmp_path):
    """A MariaDB server, whose option file is `options` in the directory of the test."""
    (tmp_path / "options").write_bytes(started_mariadb.options.read_bytes())
    return started_mariadb


@pytest.fixture
def meanwhile(monkeypatch):
    """meanwhile(change, times, at): runs the change while keys are rewrapped: before `times` keys, from key `at` on."""

    def install(change, times=1, at=1):
        calls = iter(range(1, 1000))
        act = before_each_key(lambda text: at <= next(calls) < at + times and change())
        monkeypatch.setattr("keywrap._many.rewrap_slots", act)

    from rotation_help import before_each_key

    return install
