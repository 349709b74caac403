"""Computes or compares the answers of published test vectors: python3 -m keywrap.vectors FILE..

- A request (.req of NIST's CAVP, JSON of ACVP): writes the response to standard output. With several FILEs, each must
  have its answers.
- A CAVP file with answers, or a request of ACVP and then the response to it: compares each answer.
- JSON of Wycheproof: compares each answer, and names each `acceptable` case that is refused.

Of SP 800-38F it offers KW and KWP with the AES cipher function. It refuses files of TKW and of the inverse cipher
function.

Exit status: 0 if all answers are right, 5 if one is wrong, 6 if a file cannot be read, 2 for anything else.
"""

from __future__ import annotations

import json
import sys
from typing import Any, List, Optional, Tuple, Union

import keywrap

from ._vector_files import Acvp, Case, Cavp, NotOffered, Verdict, Wycheproof, read

_File = Union[Cavp, Acvp, Wycheproof]


def _complain(why: str) -> None:
    print(f"keywrap.vectors: {why}", file=sys.stderr)


def _answer(case: Case) -> Optional[bytes]:
    """Makes the call of a case. Returns None if it is refused."""
    call = getattr(keywrap, case.call.value)
    try:
        answer: bytes = call(case.kek, case.given)
    except keywrap.KeywrapError:
        return None
    return answer


def _is_right(case: Case, answer: Optional[bytes]) -> bool:
    if case.verdict is Verdict.ACCEPTABLE and answer is None:
        return True
    return case.verdict is Verdict.ASKED or answer == case.answer


def _response(text: str) -> Optional[List[Any]]:
    """Returns the content of a response of ACVP, or None if the text is another file."""
    if not text.lstrip().startswith("["):
        return None
    content: List[Any] = json.loads(text)
    if "algorithm" in content[-1]:
        return None
    return content


def _take(files: List[Tuple[str, _File]], name: str, text: str) -> None:
    """Adds the file to those before it. A response of ACVP belongs to the request before it."""
    response = _response(text)
    if response is None:
        files.append((name, read(text)))
        return
    request = files[-1][1] if files else None
    if not isinstance(request, Acvp):
        raise NotOffered("a response without its request before it")
    request.expect(response)


def _files(names: List[str]) -> List[Tuple[str, _File]]:
    """Reads the files."""
    files: List[Tuple[str, _File]] = []
    for name in names:
        with open(name, newline="") as file:
            text = file.read()
        try:
            _take(files, name, text)
        except NotOffered as refusal:
            raise NotOffered(f"{name}: {refusal}") from None
        except (ValueError, KeyError, IndexError, TypeError):
            raise NotOffered(f"{name}: not a file of vectors") from None
    for name, vectors in files:
        if not vectors.cases:
            raise NotOffered(f"{name}: no cases")
    return files


def _compared(name: str, cases: List[Case], answers: List[Optional[bytes]]) -> int:
    """Prints what is wrong, the deviations and the counts. Returns the number of wrong answers."""
    wrong = deviations = 0
    for case, answer in zip(cases, answers):
        if not _is_right(case, answer):
            wrong += 1
            _complain(f"{name}: {case.name}: wrong answer of {case.call.value}")
        elif case.verdict is Verdict.ACCEPTABLE and answer is None:
            deviations += 1
            print(f"{name}: {case.name}: {case.call.value} refuses it; acceptable")
    number = len(cases)
    refused = answers.count(None)
    counts = f"{number} cases: {number - refused} answered, {refused} refused"
    print(f"{name}: {counts}, {deviations} of them acceptable, {wrong} wrong")
    return wrong


def main(names: List[str]) -> int:
    """Runs the command. Returns its exit status."""
    if not names:
        print(__doc__, end="", file=sys.stderr)
        return 2
    if names[0] in ("-h", "--help"):
        print(__doc__, end="")
        return 0
    try:
        files = _files(names)
    except (OSError, UnicodeDecodeError) as fault:
        _complain(f"cannot be read: {fault}")
        return 6
    except NotOffered as refusal:
        _complain(str(refusal))
        return 2
    asked = []
    for name, file in files:
        if any(case.verdict is Verdict.ASKED for case in file.cases):
            asked.append(name)
    if asked and len(files) > 1:
        _complain(f"{asked[0]}: a request goes alone")
        return 2
    wrong = 0
    for name, file in files:
        answers = [_answer(case) for case in file.cases]
        if asked and not isinstance(file, Wycheproof):
            sys.stdout.write(file.response(answers))
        else:
            wrong += _compared(name, file.cases, answers)
    return 5 if wrong else 0


if __name__ == "__main__":
    sys.exit(main(sys.argv[1:]))
