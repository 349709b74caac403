"""Published cases, of NIST, Wycheproof and ACVP, over the program. Other tests run them, with the rows of rows.txt,
over each face of the library: see test_rows.py."""

import pathlib

import pytest

import published
from program import Ended, refused
from vectors import BAD_LENGTH, INTEGRITY, in_base64

CALLS = {call.value: call for call in published.files.Call}
REFUSALS = {4: refused(4, BAD_LENGTH), 5: refused(5, INTEGRITY)}


def over_program(keywrap, case, flags, text):
    """The run of a case with these options. `text` writes bytes."""
    pathlib.Path("kek").write_text(text(case.kek.hex()))
    command = "unwrap" if case.call.unwraps else "wrap"
    padded = " --padded" * case.call.value.endswith("_padded")
    return keywrap(f"{command} --kek kek{padded} {flags}", stdin=text(case.given.hex()))


@pytest.mark.parametrize("call", CALLS)
class TestProgram:
    def test_foreign(self, keywrap, call):
        """Every case of Wycheproof and ACVP, in hex."""
        cases = [case for case in published.foreign() if case.call is CALLS[call]]
        assert len(cases) > 90
        for case in cases:
            due = (
                REFUSALS[published.refusal(case)]
                if case.answer is None
                else Ended(0, case.answer.hex() + "\n")
            )
            assert over_program(keywrap, case, "", str) == due, case

    def test_nist(self, keywrap, call):
        """A fifth of NIST's cases, in base64."""
        all_cases = published.nist_or_skip()
        cases = [case for case in all_cases if case.call is CALLS[call]][::5]
        assert len(cases) > 500
        for case in cases:
            if case.answer is None:
                due = REFUSALS[published.refusal(case)]
            else:
                answer = in_base64(case.answer.hex())
                due = Ended(0, f"{answer}\n")
            ended = over_program(keywrap, case, "--base64 --base64-kek", in_base64)
            assert ended == due, case
