"""Published cases: NIST's (CAVP, of python3-cryptography-vectors), and cases of others in foreign/."""

import bz2
import functools
import importlib.util
import json
import pathlib
import sys

from rows import Row
from rules import Status

HERE = pathlib.Path(__file__).resolve().parent.parent
FOREIGN = HERE / "foreign"


def _parser():
    """The parser, which is in the Python package but needs nothing of it. Python writes no cache into its directory."""
    path = HERE.parent / "python/src/keywrap/_vector_files.py"
    spec = importlib.util.spec_from_file_location("vector_files", path)
    module = sys.modules["vector_files"] = importlib.util.module_from_spec(spec)
    exec(compile(path.read_bytes(), path, "exec"), vars(module))
    return module


files = _parser()


def nist_files():
    """The paths of NIST's files. Raises ImportError without python3-cryptography-vectors."""
    import cryptography_vectors

    directory = pathlib.Path(cryptography_vectors.__path__[0]) / "keywrap/kwtestvectors"
    return sorted(directory.glob("KW*_A[DE]_???.txt"))


def nist_or_skip():
    """The cases, or skips the test if NIST's files are not installed."""
    from tools import need

    need("import cryptography_vectors")
    return nist()


@functools.cache
def nist():
    """All of NIST's cases, in both directions if there is an answer."""
    found = [
        case
        for path in nist_files()
        for case in files.read(path.read_bytes().decode()).cases
    ]
    assert len(found) == 6000
    return [turned for case in found for turned in case.both_ways()]


def foreign_text(name):
    return bz2.decompress((FOREIGN / f"{name}.json.bz2").read_bytes()).decode()


@functools.cache
def foreign():
    """The cases of Wycheproof and ACVP. RFC 5649 wraps no key of 0 bytes, so there an acceptable one is refused."""
    found = [
        case
        for name in ("kw_test", "kwp_test")
        for case in files.read(foreign_text(name)).cases
    ]
    for name in "ACVP-AES-KW", "ACVP-AES-KWP":
        request = files.read(foreign_text(name))
        request.expect(json.loads(foreign_text(f"{name}.expected")))
        found += [turned for case in request.cases for turned in case.both_ways()]
    # Each of the 416 tests of Wycheproof and 54 of ACVP has an unwrap.
    assert sum(case.call.unwraps for case in found) == 416 + 54
    return [
        case._replace(answer=None) if b"" in (case.given, case.answer) else case
        for case in found
    ]


# The shortest that each call takes, and what its length is a multiple of.
LENGTHS = {
    "wrap": (16, 8),
    "unwrap": (24, 8),
    "wrap_padded": (1, 1),
    "unwrap_padded": (16, 8),
}


def refusal(case):
    """The status of a case without an answer."""
    least, unit = LENGTHS[case.call.value]
    length = len(case.given)
    if length < least or length % unit:
        return Status.BAD_LENGTH
    return Status.INTEGRITY


def due(case):
    """The status and the output that are due."""
    if case.answer is None:
        status = refusal(case)
        if status == Status.INTEGRITY:
            return {"status": status, "out": bytes(len(case.given) - 8)}
        return {"status": status}
    found = {"status": Status.OK, "out": case.answer}
    if case.call.value == "unwrap_padded":
        found["len"] = len(case.answer)
    return found


def rows_of(cases):
    """The cases as rows (see rows.py)."""
    return [
        Row(
            case.name,
            case.call.value,
            {"kek": case.kek, "given": case.given},
            due(case),
        )
        for case in cases
    ]


def foreign_rows():
    return rows_of(foreign())


def nist_rows():
    return rows_of(nist_or_skip())
