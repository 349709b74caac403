"""The documents: links and paths lead to what is there, what a script makes is up to date, and repeated facts agree. No
line is too long."""

import importlib
import pathlib
import re
import subprocess
from xml.etree import ElementTree

import pytest

import edits
from page_lines import page_lines

ROOT = pathlib.Path(__file__).resolve().parent.parent
DOCUMENTS = [
    path.relative_to(ROOT)
    for path in [
        *sorted(ROOT.glob("*.md")),
        *sorted(ROOT.glob("docs/*.md")),
        ROOT / "python/README.md",
        *sorted(ROOT.glob("rotation/*.md")),
        ROOT / "js/README.md",
        ROOT / "java/README.md",
        ROOT / "dist/GO.md",
        ROOT / "dist/RUST.md",
    ]
]
DIRECTORIES = (
    r"\.ci|bench|c|command|crates|dist|docs|generate|java|js|packaging|python|rotation|scripts|specs|src|tests"
    "|[a-z0-9_]+/(?:specs|src|proofs)"
)


def text_of(document):
    return (ROOT / document).read_text()


def tracked(*paths):
    """The names of the files that git knows, in these paths or in all."""
    words = ["git", "-C", ROOT, "ls-files", "--", *paths]
    listed = subprocess.run(words, capture_output=True, text=True, check=True)
    return listed.stdout.splitlines()


def anchors_of(text):
    """The names of the headings of a page, as links have them."""
    headings = re.findall("^#+ (.*)", text, re.M)
    without_marks = [
        re.sub("[^a-z0-9 _-]", "", heading.lower()) for heading in headings
    ]
    return [name.replace(" ", "-") for name in without_marks]


@pytest.mark.parametrize("document", DOCUMENTS, ids=str)
class TestEachDocument:
    def test_links(self, document):
        text = text_of(document).replace("\n", " ")
        targets = re.findall(r"\]\(([^)]*)\)", text)
        targets += re.findall(r'<img src="([^"]*)"', text)
        for target in targets:
            if re.match("https?:", target):
                continue
            name, _, anchor = target.partition("#")
            file = document.parent / name if name else document
            assert (ROOT / file).exists(), target
            if anchor:
                assert anchor in anchors_of(text_of(file)), target

    def test_paths(self, document):
        """Files that are named with their directory are there: in the repository, in the directory of a crate, or next
        to the document."""
        in_directory = re.compile(f"(?:{DIRECTORIES})/[A-Za-z0-9_./*-]*")
        places = ("", "crates/", "crates/*/", f"{document.parent}/")
        for path in re.findall(r"`([^` ]+)`", text_of(document)):
            is_example = re.search("NAME|MODULE|TOPIC", path)
            if in_directory.fullmatch(path) and not is_example:
                pattern = path.rstrip("/")
                assert any(any(ROOT.glob(place + pattern)) for place in places), path


def sections_without_the_kit():
    """The pages and headings of without_kit.txt. A script may follow."""
    rows = text_of("tests/without_kit.txt").splitlines()
    return [row.split(" | ")[:2] for row in rows if row and not row.startswith("#")]


@pytest.mark.parametrize("page, heading", sections_without_the_kit())
def test_lines_without_the_kit(page, heading):
    """A section that tests/fresh.sh runs installs packages, and has at most four lines then."""
    packages, *lines = page_lines(text_of(page), heading)
    assert packages.startswith("apt-get install ")
    assert 1 <= len(lines) <= 4


def test_each_language_is_tried_without_the_kit():
    """The page of each language is in without_kit.txt."""
    table = r"^## Use it from a language\n\n((?:\|.*\n)+)"
    (languages,) = re.findall(table, text_of("README.md"), re.M)
    linked = {*re.findall(r"\]\(([^)#]*)", languages)}
    assert len(linked) == 9
    tried = {page for page, _ in sections_without_the_kit()}
    assert linked - tried == {"docs/CONTRACTS.md"}


@pytest.mark.needs("git")
def test_width():
    """No line outside crates/ and python/ has more than 120 columns, but for data and what a script writes."""
    data = [
        ":!crates",
        ":!python",
        ":!rotation",
        ":!*.csv",
        ":!*.svg",
        ":!tests/launcher.txt",
        ":!tests/rows.txt",
        ":!tests/all_inputs/*.txt",
        ":!tests/library",
        ":!*.edit",
        ":!tests/edits/*.txt",
        ":!command/options.jsonl",
        ":!dist/keywrap.c",
        ":!dist/command/program.c",
        ":!dist/src/proved",
    ]
    wide = []
    for name in tracked(".", *data):
        path = ROOT / name
        content = path.read_bytes() if path.exists() else b""
        is_text = b"\0" not in content
        if is_text and any(len(line) > 120 for line in content.decode().splitlines()):
            wide.append(name)
    assert wide == ["crates.txt"]


@pytest.mark.parametrize(
    "edit",
    [*edits.of_gate(), *edits.of_release()],
    ids=lambda edit: f"{edit.crate}-{edit.name}",
)
def test_edit_fits(edit):
    """Each text that a must-fail edit replaces stands once in its file. rt ci would only say that the edit is bad."""
    assert edit.edited_files()


def test_width_of_rattle():
    """Without imports and attributes, which `rt fmt` leaves on one line, and the first line of whole_rewrap_law."""
    left_out = re.compile(r" *((ghost |pub )?use |#!?\[|ensures . .pass_new : Bool)")
    for pattern, most in ("src/**/*.rt", 110), ("specs/**/*.antt", 190):
        for path in ROOT.glob(f"crates/*/{pattern}"):
            for number, line in enumerate(path.read_text().splitlines(), 1):
                assert len(line) <= most or left_out.match(line), f"{path}:{number}"


def test_map():
    """docs/ARCHITECTURE.md has a line for each directory and file at the top, except documents, and for each directory
    of c/."""
    page = text_of("docs/ARCHITECTURE.md")
    table = re.search("^At the top:\n\n(.*?)\n\n", page, re.M | re.S)[1]
    named = [line.split()[0] for line in table.splitlines()]
    places = set()
    for name in tracked():
        top, *rest = name.split("/")
        places.add(f"c/{rest[0]}" if top == "c" else top)
    is_left_out = re.compile(r"\.md$|^\.git").search
    assert sorted(named) == sorted(path for path in places if not is_left_out(path))


def width_of_letter(kinds):
    """In the width of DejaVu Sans."""
    if kinds & {"shown", "faint", "mono"}:
        return 7.3
    if "strong" in kinds:
        return 7
    return 6.5


class TestRepeatedFacts:
    def test_no_licence(self):
        """README and the copyright file of Debian's package say that there is no licence, and no file gives one."""
        words = (
            "There is no release and no licence: you may not copy, change or share it."
        )
        copyright_file = "packaging/debian-portable/copyright"
        for name in "README.md", copyright_file:
            assert words in " ".join(text_of(name).split()), name
        is_licence = re.compile(r"(?i)licen[cs]e|copying|copyright$").match
        found = [name for name in tracked() if is_licence(name.split("/")[-1])]
        assert found == [copyright_file]
        for name in (
            "python/pyproject.toml",
            "python/setup.py",
            "js/package.json.in",
            "dist/Cargo.toml",
        ):
            given = re.search(r'(?im)^ *"?licen[cs]e|License ::', text_of(name))
            assert not given, name

    @pytest.mark.parametrize(
        "script", ["facts.py", "plots.py", "testing.py", "trust.py"]
    )
    def test_what_scripts_make(self, script):
        """The map of the crates, the plots, the numbers of tests, and the definitions that a reader has to read."""
        ended = subprocess.run(
            [ROOT / "generate" / script, "--check"], capture_output=True, text=True
        )
        # It names the files.
        assert ended.stdout == ""
        assert ended.returncode == 0

    def test_what_scripts_miss(self, monkeypatch):
        """`--raw` is not found in `--raw-kek`, and an empty text is not a list of hashes."""
        monkeypatch.syspath_prepend(ROOT / "generate")
        facts, trust = map(importlib.import_module, ("facts", "trust"))
        monkeypatch.setattr(
            facts,
            "read",
            lambda name, real=facts.read: real(name).replace(".It Fl -raw\n", ""),
        )
        assert facts.lacking() == ["command/man/keywrap.1: lacks the option --raw"]
        assert trust.are_listed("aa  a.tgz\n", "aa  a.tgz\n")
        assert not trust.are_listed("", "aa  a.tgz\n")

    def test_a_sentence_without_its_number(self, monkeypatch):
        """facts.py stops if a page lost the sentence: its number would be an old one for ever."""
        monkeypatch.syspath_prepend(ROOT / "generate")
        facts = importlib.import_module("facts")
        read = facts.read

        def read_without(name):
            return read(name).replace("An instance has", "It has")

        monkeypatch.setattr(facts, "read", read_without)
        lacks = "js/README.md: lacks the place of a number"
        with pytest.raises(SystemExit, match=lacks):
            [*facts.results()]

    def test_exports_are_written(self, monkeypatch):
        """facts.py writes and compares the exports of each crate that has those of keywrap_c over another AES."""
        monkeypatch.syspath_prepend(ROOT / "generate")
        facts = importlib.import_module("facts")
        written = {name for name, _ in facts.results()}
        copies = set()
        for path in ROOT.glob("crates/*/src/*.rt"):
            name = str(path.relative_to(ROOT))
            is_original = name.startswith("crates/keywrap_c/")
            if not is_original and re.search(r"\bfn keywrap_\w+\(", text_of(name)):
                copies.add(name)
        assert len(copies) >= 8
        assert copies - written == set()

    @pytest.mark.parametrize(
        "file, written",
        [
            ("dist/keywrap.go", "C.keywrap_kind("),
            ("dist/check/all_inputs/calls.py", '"keywrap_kind"'),
            ("dist/src/calls.rs", "pub(crate) fn kind("),
            ("js/keywrap.d.ts", "    check("),
            ("tests/portable/fuzz_call.c", "keywrap_kind("),
        ],
    )
    def test_a_call_that_a_file_lacks(self, monkeypatch, file, written):
        """facts.py names the file to write it into."""
        monkeypatch.syspath_prepend(ROOT / "generate")
        headers = importlib.import_module("headers")
        read = headers.read

        def read_without(name):
            text = read(name)
            return text.replace(written, "") if name == file else text

        assert [*headers.lacking()] == []
        monkeypatch.setattr(headers, "read", read_without)
        assert [*headers.lacking()] == [f"{file}: lacks the call keywrap_kind"]

    def test_texts_of_pictures(self):
        """Texts end inside their picture, in the width of DejaVu Sans, which is wider than most."""
        count = 0
        for picture in sorted(ROOT.glob("docs/pictures/*.svg")):
            drawing = ElementTree.parse(picture).getroot()
            for text in drawing.iter("{http://www.w3.org/2000/svg}text"):
                kinds = {*text.get("class").split()}
                if kinds & {"middle", "end"}:
                    continue
                end = float(text.get("x")) + width_of_letter(kinds) * len(text.text)
                assert end <= float(drawing.get("width")), (picture.name, text.text)
                count += 1
        assert count > 100

    @pytest.mark.needs("git")
    def test_version(self, keywrap):
        """The program says VERSION, and the newest changes are of it. generate/facts.py writes it elsewhere, and no
        other file repeats it."""
        version = text_of("VERSION").strip()
        assert re.fullmatch(r"\d+\.\d+\.\d+(-dev)?", version)
        assert keywrap("--version").stdout.splitlines()[0] == f"keywrap {version}"
        newest, date = re.search(
            r"^## (\S+)(?: \((\d{4}-\d\d-\d\d)\))?$", text_of("CHANGELOG.md"), re.M
        ).groups()
        assert newest == version
        assert bool(date) == (not version.endswith("-dev"))
        search = [
            "git",
            "grep",
            "-lIF",
            "-e",
            version,
            "-e",
            version.replace("-dev", ".dev0"),
            "--",
        ]
        search += "keywrap Makefile command packaging generate scripts python js :!packaging/debian".split()
        search += [
            f"crates/{name}" for name in ("keywrap", "keywrap_cli", "keywrap_args")
        ]
        assert subprocess.run(
            search, cwd=ROOT, stdout=subprocess.PIPE, text=True
        ).stdout == ("crates/keywrap_args/src/subcommands.rt\n")

    def test_first_screen(self):
        """README has what decides for a visitor."""
        page = text_of("README.md")
        for answer in (
            "is not public",
            "not a validated FIPS 140 module",
            "we know no outside review",
            "does not wipe its memory",
            "**Tested, not proved**",
            "[timing](SECURITY.md)",
        ):
            assert answer in " ".join(page.split())

    def test_times(self):
        """README has the time of the launcher, of `make build` and of `make test`, as they say themselves."""
        readme = text_of("README.md")
        (compiling,) = re.findall("# builds it by cc first: (.* seconds)", readme)
        assert f"{compiling} the first time" in text_of("scripts/program.sh")
        (build,) = re.findall(
            "# proves and builds the program, .*: (.* minutes)", readme
        )
        assert f"program, {build} the first time" in text_of("scripts/prove.sh")
        goals = text_of("Makefile")
        assert re.search(rf"^make build  .* \({build}\)", goals, re.M)
        without, with_kit = re.findall(
            r"make test +# (?:.*, )?(\d+) minutes.*: at least [0-9,]+ tests$",
            readme,
            re.M,
        )
        times = f"({without} minutes; with the kit {with_kit}, for their proofs)"
        assert f"runs the tests of the program and the libraries {times}" in goals

    @pytest.mark.needs("rt")
    def test_kit(self):
        """README names the logic of the kit in use. Only dist/ and TRUST name the kit that they are made by."""
        used = re.search(
            r"logic (\w+)",
            subprocess.run(["rt", "version"], capture_output=True, text=True).stdout,
        )[1]
        (named,) = re.findall(r"`logic (\w+)`", text_of("README.md"))
        assert used == named, (
            f"this kit has logic {used}: with it all proofs are made again, and may fail. Run `make "
            f"proofs`. If it passes, write {used} into README instead of {named}"
        )
        search = ["git", "-C", ROOT, "grep", "-lE", f"rattle-kit-[0-9]|{named}"]
        assert subprocess.run(search, capture_output=True, text=True).stdout == (
            "README.md\ndist/command/program.c\ndist/keywrap.c\ndocs/TRUST.md\n"
        )

    def test_example_in_rattle(self):
        """The blocks of docs/CONTRACTS.md are lines of the crate that it shows, and crates.txt has the same crates."""
        page = text_of("docs/CONTRACTS.md")
        sources = [
            f"\n{path.read_text()}" for path in ROOT.glob("crates/example_caller/src/*")
        ]
        blocks = re.findall(r"^```.*\n((?:.*\n)*?)```", page, re.M)
        assert blocks
        assert [
            block
            for block in blocks
            if not any(f"\n{block}" in source for source in sources)
        ] == []
        names = "block_pair|fips197|aes_block|key_wrap_core|key_wrap_steps|key_wrap|example_caller"
        crates = re.findall(f"^(?:{names}):.*", text_of("crates.txt"), re.M)
        shown = re.search(
            r"(?:^    [a-z0-9_]+:.*\n)+", page[page.index("    block_pair:") :], re.M
        )[0]
        assert sorted(line.strip() for line in shown.splitlines()) == sorted(crates)


class TestFirstUse:
    """What stopped or misled those who used a page for the first time."""

    @pytest.mark.parametrize(
        "page, words",
        [
            ("README.md", "It keeps the keys of your tenants in a table of a database"),
            ("README.md", "Why not `openssl enc -id-aes256-wrap`?"),
            ("SECURITY.md", "Ask the owner of the repository that you have this from"),
            ("docs/RECIPES.md", "In units, cron jobs and CI set `KEYWRAP_VERBOSE=1`"),
            ("docs/C_LIBRARY.md", "expands a KEK once, for many calls. It rarely pays"),
            ("docs/C_LIBRARY.md", "# static, headers, files for find_package"),
            ("docs/OPENSSL.md", "For macOS the line is written after documentation"),
            ("dist/GO.md", "is one more secret to `Clear`: pass the KEK"),
            ("dist/GO.md", "The wrapped keys of one call have one length"),
            ("dist/GO.md", "Any other length is `ErrBadLength`"),
            ("dist/GO.md", "musl as a static program"),
            ("dist/RUST.md", "`rewrap_many` and `kind_many` take many keys"),
            ("python/README.md", "half a minute of a processor, which compiles C"),
            ("python/README.md", "another machine than that of the plot of lines"),
            ("js/README.md", "With `nodenext` the file that imports is an `.mts`"),
            ("java/README.md", "JNA looks for `keywrap.dll` and `libkeywrap.dylib`"),
            ("java/README.md", "of the time of `SunJCE`"),
        ],
    )
    def test_answers(self, page, words):
        assert words in " ".join(text_of(page).split())

    def test_packages_come_before_the_first_command(self):
        page = text_of("README.md")
        assert page.index("apt-get install ") < page.index("    $ ")

    def test_kit_is_explained_where_it_is_first_named(self):
        first = re.search(r"\bkit\b", text_of("README.md"))
        after = text_of("README.md")[first.end() :]
        assert after.startswith("\n\nThe kit has Rattle's prover and compilers. ")

    def test_lines_that_need_the_kit_say_so(self):
        """The lines of C_LIBRARY before its part on portable C."""
        page = text_of("docs/C_LIBRARY.md").partition("## Step by step")[0]
        of_kit = re.compile(r"make library|make install-library|out/library")
        lines = [
            line for line in re.findall("^    (.*)", page, re.M) if of_kit.search(line)
        ]
        assert len(lines) == 3
        for line in lines:
            assert "kit" in line.partition("#")[2], line

    def test_results_for_many_keys_are_one_list(self):
        """`new, refused = keywrap.rewrap_many(..)` reads as results and refusals, and is right for two keys only."""
        called = re.findall(
            r"^.*\bkeywrap\.\w*_many\(.*", text_of("python/README.md"), re.M
        )
        assert called
        for line in called:
            assert not re.search(r"\w+, \w+ = keywrap\.", line), line

    def test_no_promise_for_other_systems(self):
        """Nobody runs the program elsewhere than on Linux and Windows."""
        page = text_of("docs/INSTALLING.md")
        assert "any POSIX system" not in page
        assert "other POSIX systems untried" in page

    def test_pictures(self):
        """What strangers build is drawn strongly, the translation is named, and a command that goes on has a `\\`."""

        def texts_of(name):
            drawing = ElementTree.parse(ROOT / f"docs/pictures/{name}.svg").getroot()
            for text in drawing.iter("{http://www.w3.org/2000/svg}text"):
                yield text.text, text.get("class").split()

        drawn = {text for text, kinds in texts_of("wrap") if "strong" in kinds}
        assert {"portable C", "portable C, AES inst."} <= drawn
        layers = " ".join(text for text, _ in texts_of("layers"))
        assert "Without the kit the proved boxes are translated to C" in layers
        typed = [text for text, kinds in texts_of("rotation") if "shown" in kinds]
        for line, following in zip(typed, typed[1:]):
            goes_on = following.startswith("    ")
            assert line.endswith("\\") == goes_on, line
