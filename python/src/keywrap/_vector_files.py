"""Reads published test vectors: NIST's CAVP files, ACVP's JSON and Wycheproof's JSON.

This module imports nothing of the package, so the tests of the other languages read the files by it.
"""

from __future__ import annotations

import enum
import json
import re
from typing import Any, Dict, Iterable, Iterator, List, NamedTuple, Optional, Union


class Call(enum.Enum):
    """A call, by its name in the package."""

    WRAP = "wrap"
    UNWRAP = "unwrap"
    WRAP_PADDED = "wrap_padded"
    UNWRAP_PADDED = "unwrap_padded"

    @property
    def inverse(self) -> Call:
        """Returns the call that undoes it."""
        if self.unwraps:
            return Call(self.value.removeprefix("un"))
        return Call(f"un{self.value}")

    @property
    def unwraps(self) -> bool:
        """Returns whether it is given a wrapped key."""
        return self.value.startswith("un")


class Verdict(enum.Enum):
    """The result that a file expects: an answer, an answer or a refusal, a refusal, or none in a request."""

    VALID = "valid"
    ACCEPTABLE = "acceptable"
    INVALID = "invalid"
    ASKED = "asked"


class Case(NamedTuple):
    """A call with its arguments. The answer is None after a refusal, and in a request."""

    name: str
    call: Call
    kek: bytes
    given: bytes
    verdict: Verdict
    answer: Optional[bytes] = None

    def both_ways(self) -> Iterator[Case]:
        """Yields this case, and its inverse if there is an answer."""
        yield self
        if self.answer is not None:
            call = self.call.inverse
            yield self._replace(call=call, given=self.answer, answer=self.given)


class NotOffered(ValueError):
    """The text is not a file of vectors, or its vectors are of a function that is not offered."""


#: The answer to each case of a request. None is a refusal.
Answers = Iterable[Optional[bytes]]
_CALLS = {
    ("KW", True): Call.WRAP,
    ("KW", False): Call.UNWRAP,
    ("KWP", True): Call.WRAP_PADDED,
    ("KWP", False): Call.UNWRAP_PADDED,
}
_CAVP_HEADER = re.compile(r"'NIST SP 800-38F (\w+)-A([DE]) with (\S+) (.*)function'")


class Cavp:
    """A CAVP file, a request or a response: lines of names and values."""

    def __init__(self, text: str) -> None:
        header = _CAVP_HEADER.search(text)
        if header is None:
            raise NotOffered("not a file of vectors for AES Key Wrap")
        form, direction, cipher, variant = header.groups()
        is_aes = cipher.startswith("AES") and variant.strip() == "cipher"
        if form not in ("KW", "KWP") or not is_aes:
            raise NotOffered(
                f"{form} with the {cipher} {variant}function is not offered"
            )
        self._call = _CALLS[form, direction == "E"]
        # The names of the lines with the input and the answer.
        self._given = "P"
        self._answer = "C"
        if self._call.unwraps:
            self._given = "C"
            self._answer = "P"
        self._parts = re.split(r"^(?=COUNT = |\[)", text, flags=re.M)
        self.cases = list(self._read())

    def _numbers(self) -> List[int]:
        """Returns the numbers of the parts that are cases."""
        numbers = []
        for number, part in enumerate(self._parts):
            if part.startswith("COUNT"):
                numbers.append(number)
        return numbers

    def _read(self) -> Iterator[Case]:
        """Yields the cases. The name of one has the section before it."""
        section = "]"
        for part in self._parts:
            if part.startswith("["):
                name, _, _ = part.partition("]")
                section = f"{name}]"
            elif part.startswith("COUNT"):
                yield self._case(section, part)

    def _case(self, section: str, part: str) -> Case:
        lines = re.findall(r"^(\w+)(?: = (\w+))?\r?$", part, re.M)
        values = dict(lines)
        name = f"{section} COUNT = {values['COUNT']}"
        kek = bytes.fromhex(values["K"])
        given = bytes.fromhex(values[self._given])
        verdict = Verdict.ASKED
        if "FAIL" in values:
            verdict = Verdict.INVALID
        case = Case(name, self._call, kek, given, verdict)
        if self._answer not in values:
            return case
        answer = bytes.fromhex(values[self._answer])
        return case._replace(verdict=Verdict.VALID, answer=answer)

    def response(self, answers: Answers) -> str:
        """Returns the response to a request: its text, with a line for each answer."""
        parts = self._parts[:]
        for number, answer in zip(self._numbers(), answers):
            part = parts[number]
            text = part.rstrip()
            end = "\r\n" if "\r\n" in part else "\n"
            rest = part[len(text) :] or end
            line = "FAIL"
            if answer is not None:
                line = f"{self._answer} = {answer.hex()}"
            parts[number] = f"{text}{end}{line}{rest}"
        return "".join(parts)


class Acvp:
    """A request of ACVP, and perhaps the response to it."""

    def __init__(self, request: List[Any]) -> None:
        self._request = request
        content = request[-1]
        form = content["algorithm"].replace("ACVP-AES-", "")
        self.cases: List[Case] = []
        for group in content["testGroups"]:
            cipher = group["kwCipher"]
            if form not in ("KW", "KWP") or cipher != "cipher":
                raise NotOffered(f"{form} with kwCipher {cipher} is not offered")
            wraps = group["direction"] == "encrypt"
            call = _CALLS[form, wraps]
            self.cases += [self._case(call, test) for test in group["tests"]]

    @staticmethod
    def _case(call: Call, test: Dict[str, Any]) -> Case:
        kek = bytes.fromhex(test["key"])
        given = test["ct"] if call.unwraps else test["pt"]
        name = f"tcId {test['tcId']}"
        return Case(name, call, kek, bytes.fromhex(given), Verdict.ASKED)

    def expect(self, response: List[Any]) -> None:
        """Takes the expected answers from a response."""
        tests = {}
        for group in response[-1]["testGroups"]:
            for test in group["tests"]:
                tests[f"tcId {test['tcId']}"] = test
        if tests.keys() != {case.name for case in self.cases}:
            raise NotOffered("a response to other cases than the request's")
        self.cases = [self._expected(case, tests[case.name]) for case in self.cases]

    @staticmethod
    def _expected(case: Case, test: Dict[str, Any]) -> Case:
        digits = test.get("pt" if case.call.unwraps else "ct")
        if digits is None:
            return case._replace(verdict=Verdict.INVALID, answer=None)
        answer = bytes.fromhex(digits)
        return case._replace(verdict=Verdict.VALID, answer=answer)

    def response(self, answers: Answers) -> str:
        """Returns the response to the request."""
        content = self._request[-1]
        given = iter(answers)
        groups = []
        for group in content["testGroups"]:
            direction = group["direction"]
            tests = []
            for test in group["tests"]:
                tests.append(self._answered(test, direction, next(given)))
            groups.append({"tgId": group["tgId"], "tests": tests})
        head = {"vsId": content["vsId"], "testGroups": groups}
        text = json.dumps([*self._request[:-1], head], indent=2)
        return f"{text}\n"

    @staticmethod
    def _answered(
        test: Dict[str, Any], direction: str, answer: Optional[bytes]
    ) -> Dict[str, Any]:
        answered = {"tcId": test["tcId"]}
        if answer is not None:
            answered["ct" if direction == "encrypt" else "pt"] = answer.hex()
        if direction != "encrypt":
            answered["testPassed"] = answer is not None
        return answered


class Wycheproof:
    """A file of Wycheproof. Each test has a case for each direction that it decides."""

    def __init__(self, file: Dict[str, Any]) -> None:
        form = file["algorithm"]
        if (form, True) not in _CALLS:
            raise NotOffered(f"{form} is not offered")
        self.cases: List[Case] = []
        for group in file["testGroups"]:
            for test in group["tests"]:
                self.cases += self._cases(form, test)

    @staticmethod
    def _cases(form: str, test: Dict[str, Any]) -> Iterator[Case]:
        """Yields the unwrapping, and the wrapping if it is valid, or invalid because of the key's length."""
        verdict = Verdict(test["result"])
        kek = bytes.fromhex(test["key"])
        key = bytes.fromhex(test["msg"])
        wrapped = bytes.fromhex(test["ct"])
        number = f"tcId {test['tcId']}"
        name = " ".join([number, *test["flags"]])
        case = Case(name, _CALLS[form, False], kek, wrapped, verdict)
        if verdict is not Verdict.INVALID:
            yield from case._replace(answer=key).both_ways()
            return
        yield case
        is_plain_key = len(key) >= 16 and len(key) % 8 == 0
        if not key or (form == "KW" and not is_plain_key):
            yield case._replace(call=_CALLS[form, True], given=key)


def read(text: str) -> Union[Cavp, Acvp, Wycheproof]:
    """Reads a file of vectors. A response of ACVP is none: see `Acvp.expect`."""
    if not text.lstrip().startswith(("{", "[{", "[\n")):
        return Cavp(text)
    content = json.loads(text)
    if isinstance(content, list):
        return Acvp(content)
    return Wycheproof(content)
