"""The archives of `make dist` for x86-64: what is written in them, and that they work as their READMEs say, in a root
directory that has only the archive and the system's C library. test_handed_out.py compares their files."""

import hashlib
import itertools
import json
import os
import pathlib
import re
import shutil

import pytest

from builds import MACHINE, NAMES, ROOT, alone, copied_tree, run
from machines import check_glibc
from program import slow
from vectors import KEY16, WRAPPED24

pytestmark = slow

VERSION = NAMES["VERSION"]
# Each archive that is used as its README says: its README, the root of the archive, and the directory of the documents.
ARCHIVES = ["command", "library"]


def archive_name(name):
    return f"keywrap-{'library-' * (name == 'library')}{VERSION}-x86_64-linux"


class TestWhole:
    def test_checksums(self, dist):
        run("sha256sum", "-c", "--strict", "SHA256SUMS", cwd=dist)
        lines = (dist / "SHA256SUMS").read_text().splitlines()
        named = {line.split()[1] for line in lines}
        assert named == {path.name for path in dist.iterdir()} - {"SHA256SUMS"}

    @pytest.fixture
    def bill(self, dist):
        return json.loads((dist / f"keywrap-{VERSION}.cdx.json").read_text())

    @staticmethod
    def components(bill, kind):
        """The components of this type by name."""
        return {
            component["name"]: component
            for component in bill["components"]
            if component["type"] == kind
        }

    def test_head_of_the_bill(self, bill):
        assert (bill["bomFormat"], bill["specVersion"]) == ("CycloneDX", "1.4")
        assert bill["metadata"]["component"]["version"] == VERSION

    def test_kit_in_the_bill(self, bill):
        kit = bill["components"][0]
        directory = pathlib.Path(shutil.which("rt")).resolve().parent.parent
        kit_id = (directory / "KIT-ID").read_text()
        assert kit_id.startswith(f"rattle-kit-{kit['version']} ")
        assert len(kit["hashes"][0]["content"]) == 64

    def test_crates_in_the_bill(self, bill):
        """The kit's that are linked in."""
        libraries = self.components(bill, "library")
        assert libraries.keys() == {
            "std",
            "base64",
            "byteorder",
            "clap",
            "hex",
            "linked_list_allocator",
            "memchr",
            "thiserror",
        }
        crates = sorted(library["bom-ref"] for library in libraries.values())
        depends = {one["ref"]: sorted(one["dependsOn"]) for one in bill["dependencies"]}
        assert depends == {"keywrap": crates, "kit": crates}

    def test_hashes_in_the_bill(self, bill, dist):
        files = self.components(bill, "file")
        packed = [
            path for path in dist.iterdir() if path.suffix in (".gz", ".tgz", ".whl")
        ]
        assert files.keys() == {path.name for path in packed}
        for path in packed:
            shown = files[path.name]["hashes"][0]["content"]
            assert shown == hashlib.sha256(path.read_bytes()).hexdigest()

    def test_hashes_in_trust(self, dist):
        run(
            "python3", ROOT / "generate/trust.py", "--check-hashes", dist / "SHA256SUMS"
        )

    def test_lines_of_installing(self, dist):
        page = (ROOT / "docs/INSTALLING.md").read_text()
        section = page.partition("### From an archive")[2]
        lines = re.findall("^    (.*)", section, re.M)
        assert lines
        copy = shutil.copytree(dist, "copy")
        run("bash", "-ec", "\n".join(lines), cwd=copy)

    def test_same_elsewhere(self, dist, built, python, program_path):
        """make dist in a copy of the tree, of another path, umask, time and -j, gives the same checksums."""
        tree = copied_tree(pathlib.Path("another"), program_path, built("llvm.a"))
        run("find", tree, "-exec", "touch", "-d", "2001-02-03", "{}", "+")
        variables = [
            f"PYTHON={python}",
            MACHINE,
            f"PROGRAM={program_path}",
            f"ARCHIVE={built('llvm.a')}",
        ]
        make = 'umask 077; exec make -sj4 "$@"'
        goals = ["dist", *variables, "-o", "build"]
        run("sh", "-c", make, "-", "-C", tree, *goals)
        sums = (tree / "out/SHA256SUMS").read_text()
        assert sums == (dist / "SHA256SUMS").read_text()


def headings(document):
    return [
        re.sub("[^a-z0-9 _-]", "", heading.lower()).replace(" ", "-")
        for heading in re.findall("^#+ (.*)", document.read_text(), re.M)
    ]


@pytest.mark.parametrize("name", ARCHIVES)
class TestDocuments:
    def test_links(self, handed_out, name):
        """Each link that does not lead to the web leads to a file there, and to its heading."""
        found = []
        for document in (handed_out(f"archive of {name}") / "share/doc/keywrap").rglob(
            "*.md"
        ):
            for target in re.findall(
                r"\]\(([^)]*)\)", document.read_text().replace("\n", " ")
            ):
                if not target.startswith("https:"):
                    file, _, anchor = target.partition("#")
                    file = document.parent / file if file else document
                    assert file.exists(), (document.name, target)
                    assert not anchor or anchor in headings(file), (
                        document.name,
                        target,
                    )
                    found.append(target)
        assert any("#" in target for target in found)


@pytest.mark.parametrize(
    "name, path",
    [("archive of library", "lib/libkeywrap.so"), ("wheel", "keywrap/_ffi.abi3.so")],
)
def test_no_new_glibc(handed_out, name, path):
    check_glibc(handed_out(name) / path)


def test_command_of_the_wheel_needs_no_library(handed_out):
    (command,) = handed_out("wheel").glob("*.data/scripts/keywrap")
    assert "INTERP" not in run("readelf", "-l", command)


def test_packed_program(handed_out, keywrap):
    assert (
        handed_out("archive of command") / "bin/keywrap"
    ).read_bytes() == pathlib.Path(keywrap.path).read_bytes()


def typed(readme):
    """The lines of a README that a reader types, with the lines that continue them, and the answers."""
    lines = []
    answers = []
    goes_on = False
    for line in readme.read_text().splitlines():
        if line.startswith("    $ ") or goes_on:
            lines.append(line[6:])
            goes_on = line.endswith("\\")
        elif line.startswith("    ") and lines:
            answers.append(line[4:])
    return lines, answers


# Runs typed lines in the archive's directory, with an empty /usr/local and a loader list of its own. Programs run in
# the root directory `bare`, which has /proc: the loader uses it to find their directory, until there is a copy in
# /usr/local.
IN_BARE = r"""
bare() { unshare -R "$workdir/bare" -w "/$name" "$@"; }
mkdir etc && cp -a /etc/alternatives /etc/ld.so.conf* etc 2>log || true
mount -t tmpfs none /usr/local && mount --bind etc /etc
[ ! -d /var/cache/ldconfig ] || mount -t tmpfs none /var/cache/ldconfig
mkdir -p bare/proc && mount --rbind /proc bare/proc
export PATH=/usr/local/bin:/usr/sbin:/usr/bin:/sbin:/bin
cd "bare/$name"
"""


@pytest.mark.needs("tmpfs in a namespace", "cc", "pkg-config")
@pytest.mark.parametrize("name", ARCHIVES)
def test_readme_in_an_empty_root(handed_out, keywrap, name):
    """The README's lines are done, but for the provider, with its answers. Each of the library's three programs gives
    the result of RFC 3394, 4.2."""
    root = pathlib.Path("bare")
    archive = root / archive_name(name)
    root.mkdir()
    shutil.copytree(handed_out(f"archive of {name}"), archive, symlinks=True)
    for file in re.findall(r"(/\S+) \(0x", run("ldd", keywrap.path)):
        copy = root / file[1:]
        copy.parent.mkdir(parents=True, exist_ok=True)
        shutil.copy(file, copy)
    lines, answers = typed(archive / "README")
    lines = [*itertools.takewhile(is_not_of_the_provider, lines)]
    assert len(lines) == (7 if name == "command" else 9)
    script = []
    for line in lines:
        if line.startswith("cp -r "):
            script.append('bare() { "$@"; }')
        script.append(re.sub(r"(^|\| )(bin/keywrap|\./wrap)", r"\1bare \2", line))
    env = {**os.environ, "workdir": os.getcwd(), "name": archive_name(name)}
    commands = IN_BARE + "\n".join(script)
    output = run("unshare", "-rm", "bash", "-ec", commands, env=env)
    if name == "command":
        assert output.splitlines() == answers
        assert len(answers) == 4
        assert KEY16 in answers
    else:
        assert re.findall("^wrap: done: (.*)$", output, re.M) == [WRAPPED24] * 3


def is_not_of_the_provider(line):
    """Whether this line of README comes before the one that compiles the provider."""
    return not (line.startswith("cc") and ".so" in line)


@pytest.mark.needs("<openssl/evp.h>", "openssl")
def test_readme_builds_the_provider(handed_out):
    root = shutil.copytree(handed_out("archive of library"), "archive", symlinks=True)
    lines, _ = typed(pathlib.Path(root) / "README")
    of_provider = [*itertools.dropwhile(is_not_of_the_provider, lines)]
    assert "keywrap.so" in of_provider[0]
    run("bash", "-ec", "\n".join(of_provider), cwd=root)
    provider = ["-provider-path", root, "-provider", "keywrap"]
    listed = run("openssl", "list", "-providers", *provider)
    assert f"version: {VERSION}" in listed


def test_help(dist):
    """make dist makes the files that make help names."""
    text = run("make", "-s", "-C", ROOT, "help", "DIST=there", MACHINE)
    named = re.findall(r"there/(keywrap\S*)", text)
    assert named != []
    assert set(named) <= {path.name for path in dist.iterdir()}


class TestNpm:
    def test_readme_links_to_no_file(self, handed_out):
        page = (handed_out("npm") / "README.md").read_text()
        assert re.search(r"\]\((\.\.|[a-z_]*/)", page) is None

    @pytest.mark.needs("npm", "no network")
    def test_packed_by_npm(self, handed_out):
        """npm packs the same files."""
        env = {
            **os.environ,
            "npm_config_cache": f"{os.getcwd()}/npm",
            "npm_config_update_notifier": "false",
        }
        pathlib.Path("by_npm").mkdir()
        run("make", "-s", "-C", ROOT, "js", f"JS={os.getcwd()}/js")
        options = ["--silent", "--offline", "--pack-destination", "by_npm"]
        run("npm", "pack", *options, "./js", env=env)
        run("tar", "-C", "by_npm", "-xzf", f"by_npm/keywrap-{VERSION}.tgz")
        run("diff", "-r", handed_out("npm"), "by_npm/package")

    @pytest.mark.needs("npm", "no network")
    def test_installed_by_npm(self, handed_out, dist):
        """npm installs the package by the README's line, and a program imports it."""
        page = (handed_out("npm") / "README.md").read_text()
        (line,) = re.findall("^    npm install .*", page, re.M)
        pathlib.Path("a_program").mkdir()
        shutil.copy(dist / f"keywrap-{VERSION}.tgz", "a_program")
        pathlib.Path("a_program/use.mjs").write_text(
            """
            for (const name of ['keywrap', 'keywrap/inline']) {
                const { load } = await import(name);
                console.log((await load()).wrap(new Uint8Array(32), new Uint8Array(16)).at(-1));
            }"""
        )
        commands = alone([line, "node use.mjs"], HOME=os.getcwd())
        assert run(*commands, cwd="a_program").endswith("\n215\n215\n")
        run("diff", "-r", handed_out("npm"), "a_program/node_modules/keywrap")
