"""Command lines that are refused with status 2, the reason, a hint and the usage; most are in arguments.txt. The help,
the version, and the manual page, which must agree with the help. All their examples run as they are."""

import json
import os
import pathlib
import re
import subprocess
import unicodedata

import pytest

from commands import table
from program import IN_C, Ended, refused
from vectors import IV, RESERVED_IV

ROOT = pathlib.Path(__file__).resolve().parent.parent
PAGE = (ROOT / "command/man/keywrap.1").read_text()
TABLE = ROOT / "command/options.jsonl"
USAGE = {
    "": "<COMMAND>",
    "wrap": "wrap [OPTIONS] --kek <FILE> < KEY > WRAPPED",
    "unwrap": "unwrap [OPTIONS] --kek <FILE> < WRAPPED > KEY",
    "rewrap": "rewrap [OPTIONS] --kek <FILE> --new-kek <FILE> < WRAPPED > NEW",
    "check": "check [OPTIONS] --kek <FILE> < WRAPPED",
    "drill": "drill",
    "vectors": "vectors",
}
COMMANDS = [command for command in USAGE if command]
FILES_HINT = "files are named by options: --kek FILE, --input FILE, --output FILE"
COMMANDS_HINT = "the first argument is wrap, unwrap, rewrap, check, drill or vectors"
KEK_HINT = "a KEK on standard input is --kek /dev/stdin; a file of this name is ./-"
NEW_KEK_HINT = KEK_HINT.replace("--kek", "--new-kek")
CRATES_WITH_MESSAGES = (
    "key_wrap_core",
    "key_files",
    "keywrap_cli",
    "keywrap_io",
    "keywrap",
)


# The options of an initial value, each with a command that accepts it.
EACH_IV = pytest.mark.parametrize(
    "option, args",
    [
        ("--iv", "wrap --kek missing"),
        ("--iv", "unwrap --kek missing"),
        ("--iv", "check --kek missing"),
        ("--iv", "rewrap --new-kek missing --kek missing"),
        ("--new-iv", "rewrap --kek missing --new-kek missing"),
    ],
)


def message(keywrap, args):
    """The message about refused arguments, and its hints, which come before the usage."""
    ended = keywrap(args)
    assert (ended.status, ended.stdout, ended.stderr[:7]) == (2, "", "error: ")
    hints = re.findall(r"\n\n  tip: (.*)(?=\n\nUsage: keywrap )", ended.stderr)
    assert ended.stderr.count("\n  tip: ") == len(hints)
    return ended.stderr, hints


class TestRefusals:
    @pytest.mark.parametrize(
        "args", [*(args for args, in table("arguments", "refused")), ["drill", b"\xff"]]
    )
    def test_refused(self, keywrap, args):
        message(keywrap, args)

    @pytest.mark.parametrize(
        "args, hint",
        table(
            "arguments",
            "with a hint",
            FILES_HINT=FILES_HINT,
            COMMANDS_HINT=COMMANDS_HINT,
            KEK_HINT=KEK_HINT,
            NEW_KEK_HINT=NEW_KEK_HINT,
        ),
    )
    def test_with_a_hint(self, keywrap, args, hint):
        assert message(keywrap, args)[1] == [hint]

    @pytest.mark.parametrize(
        "args", [args for args, in table("arguments", "without a hint")]
    )
    def test_without_a_hint(self, keywrap, args):
        assert message(keywrap, args)[1] == []

    @pytest.mark.parametrize(
        "args",
        ["--foo", "--versoin", "--hepl", "-k x", "wrapp", "--kek kek16.hex wrap"],
    )
    def test_usage_before_a_subcommand(self, keywrap, args):
        """The usage has no option, not even one that is similar to the wrong one."""
        text, _ = message(keywrap, args)
        usage = "Usage: keywrap <COMMAND>\n\nFor more information, try '--help'.\n"
        assert text.endswith(f"\n\n{usage}")

    @pytest.mark.parametrize(
        "text",
        [
            "\x1b[31mred",
            "\x1b]0;title\a",
            "back\b\r",
            "\x7f",
            "tab\t",
            "\x9b31m",
            "\u202ereversed",
            "two\u2028lines",
        ],
        ids=repr,
    )
    @pytest.mark.parametrize(
        "args",
        [
            "{}",
            "wrap --kek kek16.hex {}",
            "wrap --{}",
            "unwrap --kek kek16.hex --raw={}",
            "drill 00 {}",
        ],
    )
    def test_terminal_gets_no_control_character(self, keywrap, args, text):
        shown, _ = message(keywrap, [arg.format(text) for arg in args.split()])
        controls = "Cc", "Cf", "Zl", "Zp"
        for character in shown.replace("\n", ""):
            assert unicodedata.category(character) not in controls, repr(character)

    @pytest.mark.parametrize(
        "given, shown",
        [
            ("\x1b[31m", r"\x1b[31m"),
            ("a\rb\tc\x7f", r"a\x0db\x09c\x7f"),
            ("\x9b2Jé", r"\x9b2Jé"),
            ("a\n\nUsage: keywrap", r"a\x0a\x0aUsage: keywrap"),
            ("a\n\n  tip: b", r"a\x0a\x0a  tip: b"),
            ("a" * 5000,) * 2,
            # One of each range that a terminal hides: a soft hyphen, an Arabic letter mark, and so on up to tags.
            (
                "\u00ad\u061c\u180e\ufff9\U000e0001\U000e0041",
                r"\u{ad}\u{61c}\u{180e}\u{fff9}\u{e0001}\u{e0041}",
            ),
        ],
    )
    def test_whole_message(self, keywrap, given, shown):
        """Control characters are escaped. An argument that looks like a part of the message does not move a hint."""
        text, hints = message(keywrap, ["wrap", given])
        assert hints == [FILES_HINT]
        assert text == (
            f"error: unexpected argument '{shown}' found\n\n  tip: {FILES_HINT}\n\n"
            "Usage: keywrap wrap [OPTIONS] --kek <FILE> < KEY > WRAPPED\n\nFor more information, try '--help'.\n"
        )

    @EACH_IV
    @pytest.mark.parametrize(
        "value",
        ["", IV[1:], IV + "0", IV[:-1] + "g", " " + IV, RESERVED_IV[:-1]],
    )
    def test_not_16_hex_digits(self, keywrap, option, args, value):
        """The values are checked before any file is opened."""
        ended = keywrap(args, option, value, "-o", "directory")
        assert ended == refused(2, f"{option} is not 16 hex digits")

    @EACH_IV
    @pytest.mark.parametrize(
        "value", [RESERVED_IV, RESERVED_IV.upper(), "A65959a600000000"]
    )
    def test_reserved_initial_value(self, keywrap, option, args, value):
        ended = keywrap(args, option, value, "-i", "missing")
        assert ended == refused(2, f"{option} is reserved for the padded form")

    @EACH_IV
    def test_initial_value_next_to_the_reserved_ones(self, keywrap, option, args):
        ended = keywrap(args, option, "a65959a700000000")
        assert ended == refused(6, "key file: cannot be opened")

    def test_iv_is_refused_before_new_iv(self, keywrap):
        args = "rewrap --kek missing --new-kek missing --new-iv 0 --iv 0"
        assert keywrap(args) == refused(2, "--iv is not 16 hex digits")


def help_of(keywrap, command="", flag="--help"):
    status, text, error = keywrap(f"{command} {flag}")
    assert (status, error) == (0, "")
    return text


def section(name, kind="Sh", end="Sh "):
    return re.search(rf"(?ms)^\.{kind} {name}\n(.*?)^\.{end}", PAGE)[1]


def options_in(text):
    """The options in lines of the manual page."""
    return {f"-{name}" for name in re.findall(r"Fl (-[a-z0-9-]+|[A-Za-z])\b", text)}


def options_of(text):
    """The options in a help text."""
    lines = re.findall(r"(?m)^ +((?:-[A-Za-z], )?--[a-z0-9-]+)(?: <[A-Z]+>)?$", text)
    return {option for line in lines for option in line.split(", ")}


def follows(keywrap, examples):
    """The examples as they run: each line that begins with $, and then what it writes."""
    os.mkdir("bin")
    os.symlink(keywrap.path, "bin/keywrap")
    script = ""
    for line in re.findall(r"(?m)^\$ (.*)", examples):
        script += f"cat <<'END'\n$ {line}\nEND\n{line}\n"
    path = f"{os.getcwd()}/bin:{os.environ['PATH']}"
    run = subprocess.run(
        ["bash", "-c", script],
        env={**os.environ, "PATH": path},
        stdout=subprocess.PIPE,
        stderr=subprocess.STDOUT,
        text=True,
        timeout=600,
    )
    return run.stdout


class TestHelp:
    @pytest.mark.parametrize("flag", ["-h", "--help"])
    @pytest.mark.parametrize("command", USAGE)
    def test_help(self, keywrap, command, flag):
        """The usage in 80 columns."""
        text = help_of(keywrap, command, flag)
        assert f"Usage: keywrap {USAGE[command]}" in text
        assert [line for line in text.splitlines() if len(line) > 80] == []
        if not command:
            assert set(COMMANDS) <= set(text.split())

    @pytest.mark.parametrize("flag", ["-V", "--version"])
    @pytest.mark.parametrize("command", USAGE)
    def test_version(self, keywrap, command, flag):
        version = (ROOT / "VERSION").read_text()
        assert re.fullmatch(r"\d+\.\d+\.\d+(-dev)?\n", version)
        ended = keywrap(f"{command} {flag}")
        # The program of dist/command has a line more.
        stdout = ended.stdout.removesuffix(IN_C)
        assert ended._replace(stdout=stdout) == Ended(0, f"keywrap {version}")

    def test_without_arguments(self, keywrap):
        """The commands are printed on standard error, like a message about refused arguments."""
        assert keywrap() == Ended(2, "", help_of(keywrap, flag="-h"))

    def test_lengths_in_the_help(self, keywrap):
        text = help_of(keywrap, "wrap")
        key = "has 16 to 1048576 bytes, a multiple of 8; with --padded 1 to 1048576."
        assert key in text
        assert "at most 4194304 bytes." in text

    def test_check_writes_no_key(self, keywrap):
        text = " ".join(help_of(keywrap, "check").split())
        assert "are written" not in text

    def test_commands_of_the_page(self, keywrap):
        listed = re.search(r"(?ms)^Commands:\n(.*?)\n\n", help_of(keywrap))[1]
        commands = re.findall(r"(?m)^  ([a-z]+) ", listed)
        assert commands == [*COMMANDS, "help"]
        explained = section("Commands", "Ss", "El")
        assert re.findall(r"(?m)^\.It Cm (.*)$", explained) == commands
        assert re.findall(r"(?m)^\.Cm (.*)$", section("SYNOPSIS")) == commands

    def test_options_of_the_page(self, keywrap):
        of_any_command = set()
        for command in USAGE:
            of_any_command |= options_of(help_of(keywrap, command))
        explained = section("Options", "Ss", "El")
        items = "\n".join(re.findall(r"(?m)^\.It .*", explained))
        assert options_in(items) == of_any_command
        assert options_in(PAGE) == of_any_command

    @pytest.mark.parametrize("command", COMMANDS)
    def test_options_of_a_command_in_the_synopsis(self, keywrap, command):
        options = options_of(help_of(keywrap, command))
        lines = rf"(?ms)^\.Cm {command}\n(.*?)^\.Nm"
        synopsis = re.search(lines, section("SYNOPSIS"))[1]
        of_all_commands = {"-h", "--help", "-V", "--version"}
        assert options_in(synopsis) == options - of_all_commands
        if command not in ("drill", "vectors"):
            assert {"-i", "--input", "-o", "--output"} <= options

    def test_table_of_options(self, keywrap):
        """Completions and the synopsis are made from this file."""
        stale = (
            "command/options.jsonl: stale, run ./keywrap options >command/options.jsonl"
        )
        assert keywrap("options") == Ended(0, TABLE.read_text(), ""), stale
        assert keywrap("options kek16.hex").status == 2

    def test_statuses_of_the_page(self, keywrap):
        rows = map(json.loads, TABLE.read_text().splitlines())
        statuses = [str(row["status"]) for row in rows if "status" in row]
        assert re.findall(r"(?m)^  (\d+)  ", help_of(keywrap)) == statuses
        page = section("EXIT STATUS")
        assert re.findall(r"(?m)^\.It (\d+)$", page) == statuses

    @pytest.mark.parametrize(
        "status, phrase",
        [
            (0, "done"),
            (2, "the command line"),
            (3, "16, 24 or 32 bytes"),
            (5, "the integrity check failed"),
            (4, "the key or the wrapped key has no legal length in this form"),
            (7, "out of memory"),
            (6, "a file or the output could not be opened, read or written"),
        ],
    )
    def test_status_of_the_page(self, keywrap, status, phrase):
        text = help_of(keywrap)
        page = section("EXIT STATUS")
        assert re.search(rf"(?im)^  {status}  .*{phrase}", text)
        assert re.search(rf"(?im)^\.It {status}\n.*{phrase}", page)

    def test_advice_of_status_3(self, keywrap):
        """The help and the page name the same options, but --new-kek is only on the page."""
        options = {"--raw-kek", "--base64-kek"}
        text = re.search(r"(?ms)^  3  .*?^  4  ", help_of(keywrap))[0]
        assert set(re.findall("--[a-z0-9-]+", text)) == options
        page = re.search(r"(?ms)^\.It 3\n.*?^\.It 4$", PAGE)[0]
        assert options_in(page) == options | {"--new-kek"}

    def test_limits_of_the_page(self):
        one_line = PAGE.replace("\n", " ")
        assert re.findall(r"\d+ to \d{7}|at most \d+", one_line) == [
            "at most 4194304",
            "16 to 1048576",
            "1 to 1048576",
            "24 to 1048584",
            "16 to 1048584",
            "at most 4194304",
        ]
        keks = "32, 48 or 64 hex digits; .* 22, 32 or 43 characters and"
        assert re.search(keks, one_line)

    def test_messages_of_the_page(self):
        """The messages that the page quotes end a text in the sources of the program. N and L are numbers there."""
        sources = ""
        for crate in CRATES_WITH_MESSAGES:
            for path in (ROOT / "crates" / crate / "src").glob("*.rt"):
                sources += path.read_text() + "\n"
        sources = re.sub(r"\{\w+\}", "N", sources)
        first = "no |bad |cannot |too |odd |base64 |length |last |refused |output: "
        quoted = re.findall(rf"(?m)^\.(?:It |Pq )?Ql ((?:{first}).*?)[ .,:]*$", PAGE)
        quoted += re.findall("(?m)^(keywrap: (?:output|the new|the KEK).*)", PAGE)
        assert len(quoted) == 22
        for text in quoted:
            in_sources = re.sub(" L$", " N", text)
            assert f'{in_sources}"' in sources, text

    @pytest.mark.parametrize(
        "source, pattern, phrase",
        [
            (
                "keywrap_io/src/output_file.rt",
                r"\.mode\(0o(\d+)\)",
                "and keeps mode 0{}",
            ),
            (
                "keywrap_args/src/help.rt",
                r"any FILE of unwrap, has mode\n0(\d+);",
                "created with mode 0{}",
            ),
            (
                "keywrap_args/src/help.rt",
                "(The new wrapped key is as long as the old one)",
                "{}.",
            ),
            (
                "keywrap_args/src/help.rt",
                r"line, has at most (\d+) bytes",
                "A line has at most {} bytes, including",
            ),
        ],
    )
    def test_numbers_of_the_page(self, source, pattern, phrase):
        """Numbers and a rule of the page that the sources of the program have, too."""
        text = (ROOT / "crates" / source).read_text()
        (value,) = set(re.findall(pattern, text))
        assert phrase.format(value) in PAGE.replace("\n", " ")

    @pytest.mark.needs("mandoc")
    def test_form_of_the_page(self):
        """The pages that it refers to need not be installed on this machine."""
        command = ["mandoc", "-T", "lint", ROOT / "command/man/keywrap.1"]
        faults = subprocess.run(command, capture_output=True, text=True).stdout
        elsewhere = r"mandoc\.db|referenced manual not found"
        for line in faults.splitlines():
            assert re.search(elsewhere, line), line

    def test_examples_of_the_page(self, keywrap):
        blocks = re.findall(r"(?ms)^\.Bd.*?\n(.*?)^\.Ed", section("EXAMPLES"))
        examples = "".join(blocks)
        assert follows(keywrap, examples) == examples
        commands = re.findall("keywrap (wrap|unwrap|rewrap|check|drill)", examples)
        assert set(commands) == set(COMMANDS) - {"vectors"}

    @pytest.mark.parametrize("command", COMMANDS)
    def test_examples_of_the_help(self, keywrap, command):
        """An example with files needs key.hex or wrapped.hex."""
        text = help_of(keywrap, command)
        block = re.search(r"(?ms)^Example.*?\n(.*?)(?:\n\n|\Z)", text)[1]
        examples = "".join(f"{line}\n" for line in re.findall("(?m)^  (.*)", block))
        assert "$ " in examples
        written = follows(keywrap, examples)
        if command == "vectors":
            first_lines = written.splitlines(keepends=True)[:2]
            written = "".join(first_lines) + "(and eleven more lines)\n"
        assert written == examples
