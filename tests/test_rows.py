"""The rows of rows.txt say what keywrap.h and OpenSSL's key wrap say; so do published cases, by which rules.py is
tested. test_library.py, test_hardware.py, test_portable.py, test_python.py, test_js.py, test_go.py, test_rust.py and
test_java.py run them over each face (see faces.py)."""

import pytest

import faces
import published
import rows
import rules
from program import slow


def test_rows_are_right():
    assert [*rows.wrong()] == []


def test_each_row_has_a_name_of_its_own():
    names = [row.name for row in rows.read()]
    assert len({*names}) == len(names) > 1600


@pytest.mark.parametrize(
    "cases", [published.foreign, pytest.param(published.nist_or_skip, marks=slow)]
)
def test_published(cases):
    for case in cases():
        arguments = {"kek": case.kek, "given": case.given}
        assert rules.due(case.call.value, arguments) == published.due(case), case


def test_a_change_beside_the_answer_is_a_fault():
    """And so is another text."""
    assert faces.is_right(
        "status=4 text=bad length: 8", "status=4 text=bad length(: 8)?"
    )
    assert not faces.is_right("status=4 text=bad", "status=4 text=bad length(: 8)?")
    questions = faces.asked("c", "foreign")
    answers = "".join(f"{question.due} changed\n" for question in questions)
    assert len(faces.faults("c", lambda text: answers, "foreign")) == len(questions)
