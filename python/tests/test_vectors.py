"""`python3 -m keywrap.vectors`, over NIST's vectors (CAVP, SP 800-38F) and small files of the other formats."""

import json
import re
import subprocess
import sys

import pytest

import keywrap

REASON = "no cryptography_vectors (apt-get install python3-cryptography-vectors)"
vectors = pytest.importorskip("cryptography_vectors", reason=REASON)

FILES = [
    f"{form}_{direction}_{bits}"
    for form in ("KW", "KWP")
    for direction in ("AE", "AD")
    for bits in (128, 192, 256)
]


def text_of(name):
    with vectors.open_vector_file(f"keywrap/{name}", "rb") as file:
        return file.read().decode()


def run(*arguments):
    """Runs the command. Returns the status and both outputs."""
    ended = subprocess.run(
        [sys.executable, "-m", "keywrap.vectors", *arguments], capture_output=True
    )
    return ended.returncode, ended.stdout.decode(), ended.stderr.decode()


class Files:
    """Runs the command over files."""

    @pytest.fixture(autouse=True)
    def in_directory(self, tmp_path, monkeypatch):
        monkeypatch.chdir(tmp_path)
        self.workdir = tmp_path

    def command(self, **texts):
        """Runs the command over files of these names and texts. Returns the status and both outputs."""
        for name, text in texts.items():
            (self.workdir / name).write_bytes(text.encode())
        return run(*texts)


class TestCavp(Files):
    """Requests and responses are NIST's, with and without the answers."""

    @pytest.mark.parametrize("name", FILES)
    def test_response_to_cavp(self, name):
        text = text_of(f"kwtestvectors/{name}.txt")
        answer = r"^C = \w+\r?\n"
        if "AD" in name:
            answer = r"^(P = \w+|FAIL)\r?\n"
        request = re.sub(answer, "", text, flags=re.M)
        assert request.count("COUNT") == 500
        assert len(request) < len(text)
        ended = self.command(request=request)
        assert ended == (0, text, "")

        # The last line of a file may have no end.
        ended_early = request.rstrip()
        status, out, err = self.command(request=ended_early)
        assert (status, err) == (0, "")
        assert out.rstrip() == text.rstrip()

    def test_right_file(self):
        right = text_of("kwtestvectors/KWP_AD_192.txt")
        counts = "500 cases: 400 answered, 100 refused, 0 of them acceptable, 0 wrong"
        ended = self.command(file=right)
        assert ended == (0, f"file: {counts}\n", "")

    @pytest.mark.parametrize(
        "value, counts",
        [
            ("K", "399 answered, 101 refused"),
            ("C", "399 answered, 101 refused"),
            ("P", "400 answered, 100 refused"),
        ],
    )
    def test_wrong_digit(self, value, counts):
        """A wrong KEK or wrapped key is refused, and a wrong key is answered by the right one."""
        right = text_of("kwtestvectors/KWP_AD_192.txt")
        section = "[PLAINTEXT LENGTH = 64]"
        with_key = re.compile(
            r"COUNT = (\d+)\r\nK = (?P<K>\w+)\r\nC = (?P<C>\w+)\r\nP = (?P<P>\w+)"
        )
        case = with_key.search(right, right.index(section))
        at = case.start(value)
        digit = int(right[at], 16)
        other_digit = f"{digit ^ 1:x}"
        wrong = right[:at] + other_digit + right[at + 1 :]

        status, out, err = self.command(file=wrong)
        counted = f"500 cases: {counts}, 0 of them acceptable, 1 wrong"
        assert (status, out) == (5, f"file: {counted}\n")
        name = f"{section} COUNT = {case[1]}"
        assert err == f"keywrap.vectors: file: {name}: wrong answer of unwrap_padded\n"

    @pytest.mark.parametrize(
        "name, message",
        [
            ("KW_AE_128_inv", " function is not offered\n"),
            ("KWP_AD_256_inv", " function is not offered\n"),
            ("TKW_AE", " function is not offered\n"),
            ("Readme", "file: not a file of vectors"),
        ],
        ids=["KW_AE_128_inv", "KWP_AD_256_inv", "TKW_AE", "Readme"],
    )
    def test_not_offered(self, name, message):
        text = text_of(f"kwtestvectors/{name}.txt")
        status, out, err = self.command(file=text)
        assert (status, out) == (2, "")
        assert message in err

    def test_usage(self):
        status, out, _ = run()
        assert (status, out) == (2, "")
        ended = self.command(file='{"algorithm": "KW", "testGroups": []}')
        assert ended == (2, "", "keywrap.vectors: file: no cases\n")
        status, out, _ = run("missing")
        assert (status, out) == (6, "")
        status, out, _ = run("--help")
        assert status == 0
        assert "Exit status" in out


class TestAcvp(Files):
    """A request of ACVP with one wrap and two unwraps, of which one is refused."""

    KEK = bytes(range(16))
    KEY = bytes(range(100, 124))
    SHORT_KEY = KEY[:5]
    WRAPPED = keywrap.wrap_padded(KEK, KEY).hex()
    WRAPPED_SHORT_KEY = keywrap.wrap_padded(KEK, SHORT_KEY).hex()
    NO_WRAPPING = bytes(16).hex()

    ENCRYPT = {
        "tgId": 1,
        "direction": "encrypt",
        "kwCipher": "cipher",
        "tests": [{"tcId": 1, "key": KEK.hex(), "pt": KEY.hex()}],
    }
    DECRYPT = {
        "tgId": 2,
        "direction": "decrypt",
        "kwCipher": "cipher",
        "tests": [
            {"tcId": 2, "key": KEK.hex(), "ct": WRAPPED_SHORT_KEY},
            {"tcId": 3, "key": KEK.hex(), "ct": NO_WRAPPING},
        ],
    }
    REQUEST = json.dumps(
        [
            {"url": "here"},
            {
                "algorithm": "ACVP-AES-KWP",
                "vsId": 9,
                "testGroups": [ENCRYPT, DECRYPT],
            },
        ]
    )
    ENCRYPTED = {"tgId": 1, "tests": [{"tcId": 1, "ct": WRAPPED}]}
    DECRYPTED = {
        "tgId": 2,
        "tests": [
            {"tcId": 2, "pt": SHORT_KEY.hex(), "testPassed": True},
            {"tcId": 3, "testPassed": False},
        ],
    }
    RESPONSE = [
        {"url": "here"},
        {"vsId": 9, "testGroups": [ENCRYPTED, DECRYPTED]},
    ]
    COUNTS = "request: 3 cases: 2 answered, 1 refused, 0 of them acceptable, {} wrong\n"

    def test_response(self):
        status, out, err = self.command(request=self.REQUEST)
        assert (status, err) == (0, "")
        assert json.loads(out) == self.RESPONSE
        ended = self.command(request=self.REQUEST, response=out)
        assert ended == (0, self.COUNTS.format(0), "")

    @pytest.mark.parametrize(
        "case, right, wrong",
        [
            (2, SHORT_KEY.hex(), KEY[1:6].hex()),
            (3, '"testPassed": false', '"pt": "00"'),
        ],
        ids=["another-key", "a-key-of-none"],
    )
    def test_wrong_response(self, case, right, wrong):
        response = json.dumps(self.RESPONSE).replace(right, wrong)
        status, out, err = self.command(request=self.REQUEST, response=response)
        assert (status, out) == (5, self.COUNTS.format(1))
        name = f"request: tcId {case}"
        assert err == f"keywrap.vectors: {name}: wrong answer of unwrap_padded\n"

    def test_response_alone(self):
        status, _, _ = self.command(response=json.dumps(self.RESPONSE))
        assert status == 2

    @pytest.mark.parametrize(
        "text, other",
        [
            ('"tcId": 3', '"tcId": 4'),
            ('"tests": [', '"tests": [{"tcId": 4},'),
        ],
        ids=["of-another-case", "of-a-case-more"],
    )
    def test_response_to_another_request(self, text, other):
        response = json.dumps(self.RESPONSE).replace(text, other, 1)
        status, _, err = self.command(request=self.REQUEST, response=response)
        assert status == 2
        assert err.startswith("keywrap.vectors: response: ")

    def test_two_requests(self):
        status, out, _ = self.command(request=self.REQUEST, other=self.REQUEST)
        assert (status, out) == (2, "")

    def test_inverse_cipher(self):
        cipher = '"kwCipher": "cipher"'
        inverse = '"kwCipher": "inverse"'
        request = self.REQUEST.replace(cipher, inverse, 1)
        refusal = "KWP with kwCipher inverse is not offered"
        message = f"keywrap.vectors: request: {refusal}\n"
        ended = self.command(request=request)
        assert ended == (2, "", message)


class TestWycheproof(Files):
    """A file of Wycheproof. Each case is a wrap and an unwrap, but for one without a key, which is only an unwrap."""

    KEK = bytes(32)
    KEY = b"five."
    NO_WRAPPING = bytes(16).hex()
    RIGHT = {
        "key": KEK.hex(),
        "flags": ["SmallKey"],
        "msg": KEY.hex(),
        "ct": keywrap.wrap_padded(KEK, KEY).hex(),
    }
    WRONG = {**RIGHT, "ct": NO_WRAPPING}
    TESTS = [
        {**RIGHT, "tcId": 1, "result": "valid"},
        {**RIGHT, "tcId": 2, "result": "acceptable"},
        {**WRONG, "tcId": 3, "result": "acceptable", "msg": ""},
        {**WRONG, "tcId": 4, "result": "invalid", "flags": []},
        {**WRONG, "tcId": 5, "result": "invalid", "flags": [], "msg": ""},
    ]

    @staticmethod
    def file_of(tests):
        return json.dumps({"algorithm": "KWP", "testGroups": [{"tests": tests}]})

    def test_right_file(self):
        status, out, err = self.command(file=self.file_of(self.TESTS))
        assert (status, err) == (0, "")
        assert out == (
            "file: tcId 3 SmallKey: unwrap_padded refuses it; acceptable\n"
            "file: tcId 3 SmallKey: wrap_padded refuses it; acceptable\n"
            "file: 9 cases: 4 answered, 5 refused, 2 of them acceptable, 0 wrong\n"
        )

    @pytest.mark.parametrize(
        "right, wrong", [('"invalid"', '"valid"'), ('"valid"', '"invalid"')]
    )
    def test_wrong_verdict(self, right, wrong):
        text = self.file_of(self.TESTS)
        wrong_text = text.replace(right, wrong)
        status, _, _ = self.command(file=wrong_text, right=text)
        assert status == 5

    def test_acceptable_case_with_another_answer(self):
        """It may be refused, but not answered otherwise."""
        other = {
            **self.RIGHT,
            "tcId": 6,
            "msg": b"other".hex(),
            "result": "acceptable",
        }
        status, out, _ = self.command(file=self.file_of([other]))
        assert status == 5
        assert out.endswith(", 2 wrong\n")
