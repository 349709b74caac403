"""Numbers in the documents that generate/facts.py does not write: each is in a recorded measurement, in a source or
in what the program writes."""

import csv
import pathlib
import re

import pytest

from test_documents import ROOT, text_of


def words_of(document):
    return " ".join(text_of(document).split())


def measured(name):
    """The rows of a measurement. The first has the names of the columns."""
    lines = text_of(f"docs/pictures/{name}.csv").splitlines()
    without_comments = [line for line in lines if not line.startswith("#")]
    return list(csv.reader(without_comments))


def only_match(pattern, text):
    """The only text in parentheses that this pattern finds in all of the text."""
    (found,) = set(re.findall(pattern, text, re.M))
    return found


def numbers_of(text):
    return [
        int(re.sub("[,_]", "", number)) for number in re.findall(r"\b\d[\d,_]*\b", text)
    ]


class TestMeasured:
    def test_rates_of_the_pictures(self):
        """The rates of the recorded rotation and of docs/pictures/lines.csv differ as the block calls do."""
        rotation = text_of("docs/pictures/rotation.txt")
        recorded_length = int(rotation.split()[1])
        lines = measured("lines")[1:]
        (lines_length,) = {int(row[2]) for row in lines}
        rates = re.findall(r"during: .* (\d+) a second", rotation)
        rotated_rate = int(rates[0])
        (lines_rate,) = [
            int(row[3]) for row in lines if row[:2] == ["keywrap --lines", "rewrap"]
        ]
        rotated_bytes = rotated_rate * recorded_length
        assert 0.75 < rotated_bytes / (lines_rate * lines_length) < 1.33

    def test_times_of_the_provider(self):
        """docs/OPENSSL.md says about half for a wrap, except of the shortest key, and less for an unwrap."""
        for _, call, length, theirs, ours in measured("provider")[1:]:
            most = 0.6 if call == "wrap" else 0.5
            if (call, length) != ("wrap", "16"):
                assert 0.4 < int(ours) / int(theirs) < most, (call, length)

    @pytest.mark.parametrize("call", ["wrap", "unwrap"])
    def test_times_of_the_provider_for_a_block_call(self, call):
        """The rows of 256 and 4,096 bytes take nearly the same time for a block call."""

        def time_of_a_block_call(length):
            block_calls = 6 * length / 8
            for _, name, key, *times in measured("provider")[1:]:
                if name == call and int(key) == length:
                    return [int(time) / block_calls for time in times]

        few = time_of_a_block_call(256)
        many = time_of_a_block_call(4096)
        for one, other in zip(few, many, strict=True):
            assert 1 <= one / other < 1.1


class TestSources:
    def test_limits(self):
        """The longest key, the longest wrapped key and the longest file: of the crates, the header and each page."""

        def limit_in(source, pattern):
            (limit,) = numbers_of(only_match(pattern, text_of(source)))
            return limit

        key = limit_in("crates/key_wrap_core/src/lengths.rt", "MAX_KEY: usize = (.*);")
        file = limit_in("crates/key_files/src/read.rt", "MAX_FILE: usize = (.*);")
        assert key == limit_in("dist/keywrap.h", "define KEYWRAP_MAX_KEY (.*)")
        assert key == 1 << 20
        assert "`keywrap` refuses keys over 1 MiB" in words_of("CHANGELOG.md")

        wrapped_key = key + 8
        pages = {
            "docs/DEFINITIONS.md": {key, wrapped_key, file},
            "command/man/keywrap.1": {key, wrapped_key, file},
            "js/keywrap.d.ts": {key, wrapped_key},
            "docs/OPENSSL.md": {key},
            "python/README.md": {key},
            "java/README.md": {key},
        }
        for page, limits in pages.items():
            numbers = numbers_of(text_of(page))
            large = {number for number in numbers if 10**6 <= number < 10**7}
            assert large == limits, page

    def test_crates(self):
        """docs/ARCHITECTURE.md lists every crate."""
        page = text_of("docs/ARCHITECTURE.md").partition("An arrow leads")[0]
        listed = re.findall(r"^- `(\w+)`: ", page, re.M)
        crates = [path.parent.name for path in ROOT.glob("crates/*/src")]
        assert sorted(listed) == sorted(crates)

    def test_stack_of_the_program(self, keywrap):
        """docs/PROVED.md has what the kit's compiler writes into the program. The program in C has no such number."""
        program = pathlib.Path(keywrap.path).read_bytes()
        for size in re.findall(rb"stack-bytes=(\d+)\+", program):
            kilobytes = round(int(size) / 1000)
            text = f"counts {kilobytes} KB for the program"
            assert text in words_of("docs/PROVED.md")

    def test_vectors(self, keywrap):
        """The manual page has the number of the vectors."""
        lines = keywrap("vectors").stdout.splitlines()
        assert len(lines) == 12
        assert all(line.endswith(" ok") for line in lines)
        text = "Runs the twelve published test vectors"
        assert text in words_of("command/man/keywrap.1")
