"""The kit of tests over each kind of store."""

from store_kit import KINDS, StoreTests


class TestLines(StoreTests):
    bench = KINDS["lines"]


class TestOneKey(StoreTests):
    bench = KINDS["files of one key"]


class TestObjects(StoreTests):
    bench = KINDS["objects"]


class TestSqlite(StoreTests):
    bench = KINDS["SQLite"]


class TestSqliteWithLog(StoreTests):
    bench = KINDS["SQLite with a log"]


class TestPostgresql(StoreTests):
    bench = KINDS["PostgreSQL"]


class TestMariadb(StoreTests):
    bench = KINDS["MariaDB"]
