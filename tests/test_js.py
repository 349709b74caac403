"""The package for browsers, Node and Deno, in Node without a flag and in Chromium, Firefox and WebKit: rows.txt, the
published cases, the module's memory after each call, bundles; its page. Deno is not in Debian, so it is not tested."""

import glob
import json
import os
import re
import shutil
import subprocess

import pytest

import faces
from builds import NAMES, ROOT, run
from program import slow
from tools import missing, need
from vectors import VALUES

PAGE = (ROOT / "js/README.md").read_text()
FILES = (
    "README.md calls.js example.html inline.d.ts inline.js keywrap.d.ts keywrap.js "
    "keywrap.wasm module.js package.json"
)
# The syntax of these hosts is the oldest that the package supports.
HOSTS = "chrome85,firefox79,safari15,node16"
ENTRY = "import {{ load }} from '{}'; import {{ offer }} from './bundle.mjs';"
# Each bundle: its format, the package, and the rest of its entry.
BUNDLES = {
    "beside.mjs": ("esm", "keywrap", "offer('beside', load);"),
    # The module's bytes are in it, so it need not be an ES module.
    "inside.js": (
        "iife",
        "keywrap",
        "import module from 'keywrap/keywrap.wasm'; offer('inside', () => load(module));",
    ),
    "alone/bundle.js": ("iife", "keywrap/inline", "offer('alone', load);"),
}


def tables(kept="rows"):
    return [
        kept,
        "foreign",
        *([] if missing("import cryptography_vectors") else ["nist"]),
    ]


@pytest.fixture(scope="session")
def programs(once):
    """The directory of the programs, with the package where a user has it, the lines of rows.mjs, and vectors.mjs."""

    def build(directory):
        shutil.copytree(ROOT / "tests/js", directory, dirs_exist_ok=True)
        shutil.copy(ROOT / "tests/lib/engine.mjs", directory)
        (directory / "node_modules").mkdir()
        package = directory / "node_modules/keywrap"
        run("make", "-s", "-C", ROOT, "js", f"JS={package}")
        with open(directory / "vectors.mjs", "w") as vectors:
            for name, value in VALUES.items():
                vectors.write(f"export const {name} = '{value}';\n")
        with open(directory / "lines.txt", "w") as lines:
            for question in faces.asked("js", *tables("short")):
                lines.write(f"{question.line}\n")

    return once("js", build)


@pytest.fixture
def package(programs):
    return programs / "node_modules/keywrap"


@pytest.fixture(scope="session")
def bundles(once, programs):
    """As a packager makes them."""
    need("esbuild")

    def build(directory):
        for name, (form, package, rest) in BUNDLES.items():
            options = [
                "--bundle",
                "--minify",
                "--log-level=warning",
                f"--format={form}",
                "--loader:.wasm=binary",
            ]
            ended = subprocess.run(
                ["esbuild", *options, f"--outfile={directory}/{name}"],
                cwd=programs,
                check=True,
                input=ENTRY.format(package) + rest,
                capture_output=True,
                text=True,
            )
            assert ended.stderr == "" or package == "keywrap"
        shutil.copy(programs / "node_modules/keywrap/keywrap.wasm", directory)

    return once("js-bundles", build)


class TestPackage:
    def test_files(self, package):
        assert sorted(path.name for path in package.iterdir()) == FILES.split()

    def test_size(self, package):
        """The module has at most 39 KB, and README has its size."""
        size = (package / "keywrap.wasm").stat().st_size
        assert size <= 39000
        assert f"`keywrap.wasm` ({(size + 500) // 1000} KB)" in PAGE

    def test_what_a_bundler_looks_for(self, package):
        source = (package / "keywrap.js").read_text()
        assert "new URL('./keywrap.wasm', import.meta.url)" in source

    @pytest.mark.needs("esbuild")
    @pytest.mark.parametrize("name", ["calls", "inline", "keywrap"])
    def test_syntax(self, package, name):
        """esbuild has nothing to replace for older hosts."""
        esbuild = ["esbuild", "--format=esm"]
        source = package / f"{name}.js"
        for_any_host = run(*esbuild, source)
        assert run(*esbuild, f"--target={HOSTS}", source) == for_any_host


@pytest.mark.needs("node")
class TestNode:
    def test_version(self, programs):
        """The package has the version of the program, and the module in it the numbers."""
        program = "import { load } from 'keywrap'; console.log((await load()).version)"
        output = run("node", "--input-type=module", "-e", program, cwd=programs)
        version = json.loads(
            (programs / "node_modules/keywrap/package.json").read_text()
        )["version"]
        assert [version, output] == [
            NAMES["VERSION"],
            NAMES["VERSION"].removesuffix("-dev") + "\n",
        ]

    def test_readme(self, programs):
        """Its program writes what its comments say."""
        part = re.search(r"^<!-- tests/test_js\.py runs this.*?^- ", PAGE, re.M | re.S)[
            0
        ]
        program = "".join(re.findall("^    (.*\n)", part, re.M))
        due = re.findall(r"^ *console\.log.*;  *// (.*)", program, re.M)
        assert len(due) == 3
        (programs / "readme.mjs").write_text(program)
        assert run("node", "readme.mjs", cwd=programs).splitlines() == due

    def test_common_js(self, programs):
        """import() there has the package, and require of Node 18 fails with the error that README names."""
        run(
            "node",
            "-e",
            "import('keywrap').then(async ({ load }) => (await load()).selfTest())",
            cwd=programs,
        )
        if run("node", "--version").startswith("v18."):
            ended = subprocess.run(
                ["node", "-e", "require('keywrap')"],
                cwd=programs,
                capture_output=True,
                text=True,
            )
            assert ended.returncode
            assert "ERR_REQUIRE_ESM" in ended.stderr

    @pytest.mark.parametrize(
        "name", ["calls.mjs", "objects.mjs", "--expose-gc growth.mjs"]
    )
    def test_program(self, programs, name):
        run("node", *name.split(), cwd=programs)

    def test_rows(self, programs):
        faces.check(
            "js",
            lambda text: run("node", "rows.mjs", input=text, cwd=programs),
            *tables(),
        )

    def test_bundles(self, programs, bundles):
        run("node", "bundles.mjs", bundles, cwd=programs)


ENGINES = {
    "chromium": (["chromium"], "chromium"),
    "firefox": (["firefox-esr"], "firefox-esr"),
    "webkit": (
        ["MiniBrowser", "xvfb-run", "dbus-run-session"],
        "/usr/lib/*/webkit2gtk-4.*/MiniBrowser",
    ),
}


@pytest.mark.parametrize(
    "engine",
    ["chromium", *(pytest.param(name, marks=slow) for name in ("firefox", "webkit"))],
)
def test_engine(programs, request, engine):
    """The same tests in a page there."""
    tools, program = ENGINES[engine]
    need("node", *tools)
    bundled = "" if missing("esbuild") else request.getfixturevalue("bundles")
    os.mkdir("files")
    program = glob.glob(program)[0] if "*" in program else program
    faces.check(
        "js",
        lambda _: run(
            "node",
            "engines.mjs",
            engine,
            program,
            os.path.abspath("files"),
            programs / "node_modules/keywrap",
            bundled,
            cwd=programs,
            timeout=1500,
        ),
        *tables("short"),
    )


HEAD = """import { load, BadLength, KeyNotPlain, KeywrapError, type Kind, type Keywrap } from "keywrap";
import { load as loadInline } from "keywrap/inline";
const k = await load(), inline: Keywrap = await loadInline(); const b = new Uint8Array();
"""
RIGHT = (
    HEAD
    + """const kind: Kind | null = k.check(k.wrap(b, b), k.rewrap(b, b, b, { newPadded: true }));
k.rewrap(b, b, b, { oldPadded: true, keepForm: false }); k.wrap(b, b, { iv: b }); k.unwrap(b, b, { iv: b });
k.unwrapPadded(b, k.wrapPadded(b, b)); const text: string = k.version; const error: BadLength = new KeyNotPlain();
k.rewrap(b, b, b, { passNew: true }); const key: Uint8Array = k.unwrapAny(b, b).key;
const wrapped: Uint8Array[] = k.wrapMany(b, [b]); const kinds: (Kind | null)[] = k.checkMany(b, [b]);
const results: (Uint8Array | KeywrapError)[][] = [k.unwrapMany(b, [b]), k.rewrapMany(b, b, [b])];
"""
)
# A result is not a string, a padded form has no initial value, and what load returns cannot be changed. A refusal among
# many results is not a key, and nothing found is not a kind. Numbers are not a key, and a text is not a flag.
WRONG = (
    HEAD
    + """const text: string = k.wrap(b, b, { iv: b });
k.wrapPadded(b, b, { iv: b });
k.version = '1.0.0';
const unwrapped: Uint8Array[] = k.unwrapMany(b, [b]);
const rewrapped: Uint8Array[] = k.rewrapMany(b, b, [b]);
const kinds: Kind[] = k.checkMany(b, [b]);
k.wrapMany(b, [[1, 2]]);
k.unwrapMany(b, [b], { padded: 'yes' });
"""
)


@pytest.mark.needs("tsc")
def test_types(programs):
    """tsc refuses the last lines of the wrong program, each for its reason, and nothing else."""
    for name, program in ("right.mts", RIGHT), ("wrong.mts", WRONG):
        (programs / name).write_text(program)
    options = [
        "--noEmit",
        "--strict",
        "--target",
        "es2022",
        "--module",
        "node16",
        "--moduleResolution",
        "node16",
    ]
    ended = subprocess.run(
        ["tsc", *options, "right.mts", "wrong.mts"],
        cwd=programs,
        capture_output=True,
        text=True,
    )
    refused = dict(re.findall(r"^wrong\.mts\((\d+),(.*)", ended.stdout, re.M))
    reasons = [
        "type 'string'",
        "Expected 2 arguments",
        "read-only",
        "to type 'Uint8Array[]'",
        "to type 'Uint8Array[]'",
        "to type 'Kind[]'",
        "to type 'Uint8Array'",
        "to type 'boolean",
    ]
    assert [*refused] == [str(4 + at) for at in range(len(reasons))], ended.stdout
    assert all(
        reason in error for reason, error in zip(reasons, refused.values())
    ), ended.stdout
    assert len(re.findall(r"^\S", ended.stdout, re.M)) == len(reasons)


@pytest.mark.needs("tsc")
def test_types_without_exports(programs):
    """Both entries have types where TypeScript does not read `exports`: with `moduleResolution: node`."""
    (programs / "old.ts").write_text(RIGHT)
    options = ["--noEmit", "--strict", "--target", "es2022", "--module", "es2022"]
    run("tsc", *options, "--moduleResolution", "node", "old.ts", cwd=programs)
