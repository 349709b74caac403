"""A MariaDB server of its own for tests."""

import importlib
import os
import pathlib
import shutil
import subprocess
import tempfile
import time

from postgresql_server import NOBODY

OPTIONS = """[client]
user = root
socket = {directory}/socket
database = keywrap
"""


def mariadb_programs():
    """Debian has the server where only root looks for programs."""
    path = f"{os.environ['PATH']}:/usr/sbin:/usr/local/sbin"
    programs = [
        shutil.which(name, path=path) for name in ("mariadb-install-db", "mariadbd")
    ]
    return programs if all(programs) else []


class MariadbServer:
    """Its option file is `options`. It runs as nobody if the tests run as root."""

    def __init__(self):
        self.directory = pathlib.Path(tempfile.mkdtemp())
        tables = self.directory / "tables"
        tables.mkdir()
        if os.geteuid() == 0:
            shutil.chown(self.directory, "nobody")
            shutil.chown(tables, "nobody")
        self.options = self.directory / "options"
        self.options.write_text(OPTIONS.format(directory=self.directory))
        self.prefix = NOBODY if os.geteuid() == 0 else []
        install, self.program = mariadb_programs()
        self.run(
            install,
            "--auth-root-authentication-method=normal",
            "--skip-test-db",
            "--skip-name-resolve",
            "--innodb-use-native-aio=0",
        )
        self.start()
        self.sql("CREATE DATABASE keywrap")

    def run(self, program, *words):
        done = subprocess.run(
            self.command(program, *words),
            cwd=self.directory,
            stdout=subprocess.PIPE,
            stderr=subprocess.STDOUT,
        )
        assert done.returncode == 0, done.stdout.decode()

    def command(self, program, *words):
        data = f"--datadir={self.directory}/data"
        # A server that starts removes the temporary tables of all others in its directory.
        temporary = f"--tmpdir={self.directory}/tables"
        return [*self.prefix, program, "--no-defaults", data, temporary, *words]

    def start(self, *words):
        """Starts the server. A test may add options."""
        with open(self.directory / "log", "ab") as log:
            self.process = subprocess.Popen(
                self.command(
                    self.program,
                    f"--socket={self.directory}/socket",
                    "--skip-networking",
                    "--innodb-use-native-aio=0",
                    "--innodb-buffer-pool-size=32M",
                    *words,
                ),
                cwd=self.directory,
                stdout=log,
                stderr=log,
            )
        until = time.monotonic() + 120
        while not self._answers():
            assert self.process.poll() is None, (self.directory / "log").read_text()
            assert time.monotonic() < until
            time.sleep(0.1)

    def _answers(self):
        driver = importlib.import_module("pymysql")
        try:
            self.connect(database=None).close()
        except driver.err.OperationalError:
            return False
        return True

    def connect(self, database="keywrap", **more):
        """A connection of root, whose statements are committed at once."""
        driver = importlib.import_module("pymysql")
        multi = importlib.import_module("pymysql.constants.CLIENT").MULTI_STATEMENTS
        return driver.connect(
            user="root",
            unix_socket=f"{self.directory}/socket",
            database=database,
            charset="utf8mb4",
            autocommit=True,
            client_flag=multi,
            **more,
        )

    def sql(self, statements):
        """Runs statements, and returns the rows of the last one that has rows."""
        database = None if statements.startswith("CREATE DATABASE") else "keywrap"
        connection = self.connect(database)
        rows = []
        try:
            cursor = connection.cursor()
            cursor.execute(statements)
            while True:
                if cursor.description:
                    rows = cursor.fetchall()
                if not cursor.nextset():
                    return list(rows)
        finally:
            connection.close()

    def fill(self, keys, kind="varbinary(3000)", table="keys"):
        """Makes a table of wrapped keys by their ids, as bytes or as hex text."""
        is_binary = "bin" in kind or "blob" in kind
        self.sql(
            f"DROP TABLE IF EXISTS `{table}`;"
            f"CREATE TABLE `{table}` (id bigint PRIMARY KEY, `key` {kind}) ENGINE = InnoDB"
        )
        values = []
        for number, key in keys.items():
            value = f"X'{key.hex()}'" if is_binary else f"'{key.hex()}'"
            values.append(f"({number}, {value})")
        for at in range(0, len(values), 5000):
            batch = ", ".join(values[at : at + 5000])
            self.sql(f"INSERT INTO `{table}` VALUES {batch}")

    def held(self, value="HEX(`key`)", table="keys"):
        """The wrapped key of each id."""
        found = self.sql(f"SELECT id, {value} FROM `{table}`")
        return {number: bytes.fromhex(key) for number, key in found}

    def kill(self):
        """Ends the server as a crash does."""
        self.process.kill()
        self.process.wait()

    def end(self):
        self.process.terminate()
        self.process.wait(60)
        shutil.rmtree(self.directory)
