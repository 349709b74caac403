"""A PostgreSQL server of its own for tests."""

import os
import pathlib
import shutil
import subprocess
import tempfile

NOBODY = ["setpriv", "--reuid", "nobody", "--regid", "nogroup", "--clear-groups"]


def server_programs():
    return (
        list(pathlib.Path("/usr/lib/postgresql").glob("*/bin"))
        if shutil.which("psql")
        else []
    )


class Server:
    """Libpq finds it by `environment`. It refuses to run as root."""

    def __init__(self):
        self.directory = pathlib.Path(tempfile.mkdtemp())
        if os.geteuid() == 0:
            shutil.chown(self.directory, "nobody")
        self.environment = {
            "PGHOST": str(self.directory),
            "PGPORT": "5432",
            "PGUSER": "keywrap",
            "PGDATABASE": "postgres",
            "PSQLRC": "/dev/null",
        }
        self.control("-o", "-U keywrap -A trust -N", "initdb")
        self.control(
            "-o",
            f"-k {self.directory} -c listen_addresses= -c fsync=off -c max_prepared_transactions=2",
            "-l",
            "log",
            "start",
        )

    def control(self, *words):
        program = sorted(server_programs())[-1] / "pg_ctl"
        command = [
            *(NOBODY if os.geteuid() == 0 else []),
            program,
            "-s",
            "-D",
            "data",
            *words,
        ]
        subprocess.run(
            command, check=True, cwd=self.directory, stdout=subprocess.DEVNULL
        )

    def sql(self, statements):
        done = subprocess.run(
            ["psql", "-qAtX", "-v", "ON_ERROR_STOP=1"],
            input=statements,
            capture_output=True,
            text=True,
            env={**os.environ, **self.environment},
            timeout=60,
        )
        assert done.returncode == 0, done.stderr
        return done.stdout

    def fill(self, keys, kind="bytea"):
        """Makes the table `keys` of wrapped keys by their ids, as bytea or as hex text."""
        prefix = r"\\x" if kind == "bytea" else ""
        copied = "".join(
            f"{number}\t{prefix}{key.hex()}\n" for number, key in keys.items()
        )
        self.sql(
            f"DROP TABLE IF EXISTS keys;\nCREATE TABLE keys (id bigint PRIMARY KEY, key {kind});\n"
            f"COPY keys FROM STDIN;\n{copied}\\.\nANALYZE keys;"
        )

    def held(self, value="encode(key, 'hex')"):
        """The wrapped key of each id."""
        found = (
            row.split("|")
            for row in self.sql(f"SELECT id, {value} FROM keys").splitlines()
        )
        return {int(number): bytes.fromhex(key) for number, key in found}

    def end(self):
        self.control("-m", "fast", "stop")
        shutil.rmtree(self.directory)
