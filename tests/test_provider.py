"""The provider for OpenSSL 3: each call by EVP with OpenSSL's own provider and with ours has the same result, except
for the differences in docs/OPENSSL.md. Other programs use it by the openssl.cnf of that page."""

import os
import pathlib
import re
import shutil
import subprocess

import pytest

from builds import NAMES, ROOT, run
from machines import SANITIZED, STRICT, WITH_SSE41, WITHOUT_SSE41
from program import all_of, slow
from tools import need
from vectors import KEK32, KEY16, WRAPPED32, raw

pytestmark = pytest.mark.needs("cc", "<openssl/evp.h>")

OWN = ROOT / "tests/provider"
PAGE = (ROOT / "docs/OPENSSL.md").read_text()
RESERVED = "initial value reserved for the padded form"
NEW_READER = (
    "openssl req -x509 -newkey ec -pkeyopt ec_paramgen_curve:P-256 -nodes -keyout key.pem -out cert.pem"
    " -subj /CN=reader"
)


@pytest.fixture(scope="module", autouse=True)
def environment():
    """No configuration of this machine. The programs compare the version with KEYWRAP_VERSION."""
    with pytest.MonkeyPatch.context() as patch:
        for name in "OPENSSL_CONF", "OPENSSL_MODULES":
            patch.delenv(name, raising=False)
        patch.setenv("KEYWRAP_VERSION", NAMES["VERSION"])
        yield


def programs(directory, *options):
    """Compiles the two programs."""
    compiler = ["cc", *STRICT, "-O1", "-g", *options]
    sources = [path for path in sorted(OWN.glob("*.c")) if path.name != "direct.c"]
    run(*compiler, *sources, "-lcrypto", "-o", directory / "compared")
    run(*compiler, OWN / "direct.c", "-ldl", "-o", directory / "direct")


@pytest.fixture(scope="session")
def compiled_programs(once):
    return once("provider-programs", programs)


def module(directory, library, *options):
    compiler = ["cc", *STRICT, "-O1", "-g", "-fPIC", "-shared", *options]
    sources = sorted((ROOT / "c/provider").glob("*.c"))
    exports = f"-Wl,--version-script,{ROOT}/c/provider/provider.map"
    inputs = [*sources, library / "libkeywrap.a", exports]
    run(*compiler, *inputs, "-o", directory / "keywrap.so")


@pytest.fixture(scope="session")
def sanitized(once, library):
    def build(directory):
        module(directory, library, *SANITIZED)
        programs(directory, *SANITIZED)

    return once("provider-sanitized", build)


@pytest.fixture
def modules(handed_out):
    """The directory with the module, as it is installed."""
    return handed_out("provider") / "modules"


@pytest.fixture(scope="session")
def over_portable_c(once):
    """The directory with the module that the page's line builds, over a copy of the directories that it names."""

    def build(directory):
        for name in "dist", "c/provider":
            shutil.copytree(
                ROOT / name, directory / name, ignore=shutil.ignore_patterns("target")
            )
        (line,) = re.findall(r"^    (cc .*\\\n.*)", PAGE, re.M)
        run("bash", "-ec", line, cwd=directory)

    return once("provider-over-portable-c", build)


@pytest.mark.parametrize("compiler", ["gcc", "clang"])
def test_no_warning(compiler):
    need(compiler)
    sources = sorted((ROOT / "c/provider").glob("*.c"))
    run(compiler, *STRICT, "-O2", "-fsyntax-only", *sources)


class TestCompared:
    """Against OpenSSL's own, in one process."""

    @staticmethod
    def command(programs, modules, args):
        """Called as programs call it; without arguments, as the core does, with refused memory and cleared KEKs."""
        if args:
            return [programs / "compared", modules, *args.split()]
        return [programs / "direct", modules / "keywrap.so"]

    @pytest.mark.parametrize(
        "args", ["", "lengths", "sequences 10000", "parameters", "refusals"]
    )
    def test_module(self, compiled_programs, modules, args):
        run(*self.command(compiled_programs, modules, args))

    @pytest.mark.parametrize(
        "args",
        all_of(
            ["", "lengths", "sequences 10000", "parameters", "refusals"],
            ["lengths"],
            [""],
        ),
    )
    def test_over_portable_c(self, compiled_programs, over_portable_c, args):
        run(*self.command(compiled_programs, over_portable_c, args))

    @pytest.mark.needs("sanitizers of cc")
    @slow
    @pytest.mark.parametrize("args", ["", "sequences 2000", "parameters", "refusals"])
    def test_sanitized(self, sanitized, args):
        run(*self.command(sanitized, sanitized, args))

    @slow
    @pytest.mark.needs("valgrind")
    def test_memcheck(self, compiled_programs, modules):
        for args in "", "sequences 300":
            memcheck = ["valgrind", "-q", "--error-exitcode=9", "--leak-check=full"]
            run(*memcheck, *self.command(compiled_programs, modules, args))


@pytest.mark.needs("openssl")
@pytest.mark.parametrize("words", [[], ["MODULESDIR=/opt/modules"]])
def test_installed_and_removed(library, words):
    """In OpenSSL's directory of modules, or in another: one file, which make uninstall-provider removes."""
    directory = "/opt/modules"
    if not words:
        directory = re.search('"(.*)"', run("openssl", "version", "-m"))[1]
    workdir = os.getcwd()
    made = [
        "make",
        "-s",
        "-C",
        ROOT,
        f"LIBRARY={library}",
        f"DESTDIR={workdir}/stage",
        f"PROVIDER={workdir}/built",
    ]
    run(*made, "install-provider", "-o", "library", *words)
    stage = pathlib.Path("stage")
    module = stage / directory[1:] / "keywrap.so"
    assert [path for path in stage.rglob("*") if path.is_file()] == [module]
    assert module.stat().st_mode & 0o777 == 0o644
    run(*made, "uninstall-provider", *words)
    assert not [path for path in stage.rglob("*") if path.is_file()]


def configured(name, path):
    """Variables for programs that use the configuration of the page, with this path of the module."""
    configuration = re.search(
        r"^    openssl_conf = .*?^    default_properties = .*?$", PAGE, re.M | re.S
    )[0]
    lines = [line.removeprefix("    ") for line in configuration.splitlines()]
    settings = re.compile("module|activate|providers|nodejs_conf")
    assert len([line for line in lines if settings.match(line)]) == 5
    lines = [
        f"module = {path}" if line.startswith("module = ") else line for line in lines
    ]
    pathlib.Path(name).write_text("\n".join(lines) + "\n")
    return {**os.environ, "OPENSSL_CONF": os.path.abspath(name)}


@pytest.fixture
def ours(modules):
    configured("none.cnf", "/none.so")
    return configured("ours.cnf", modules / "keywrap.so")


def refuses(text, *command, **options):
    """The command fails or succeeds, and names this reason, in words that OpenSSL's own does not have."""
    ended = subprocess.run(list(map(str, command)), capture_output=True, **options)
    assert text.encode() in ended.stdout + ended.stderr, ended


def enc(given, *words, env=None):
    """The output of openssl enc for these hex digits, in hex."""
    ended = subprocess.run(
        ["openssl", "enc", *words, "-K", KEK32],
        input=raw(given),
        capture_output=True,
        env=env,
    )
    assert ended.returncode == 0, ended.stderr
    return ended.stdout.hex()


@pytest.mark.needs("openssl")
class TestOpenssl:
    # The page's way to see that ours is used: OpenSSL's own takes the value.
    COMMAND = re.search(
        r"^    \$ (echo .* \| openssl enc -id-aes128-wrap .*)", PAGE, re.M
    )[1]

    def test_listed(self, ours):
        assert f"version: {NAMES['VERSION']}" in run(
            "openssl", "list", "-providers", env=ours
        )

    def test_listed_by_the_page(self, over_portable_c):
        """The lines that build it without the kit end with it in the list."""
        (line,) = re.findall(r"^    (openssl list .*)", PAGE, re.M)
        output = run("bash", "-ec", line, cwd=over_portable_c)
        assert "keywrap: AES Key Wrap, proved" in output
        assert f"version: {NAMES['VERSION']}" in output

    def test_descriptions(self, modules):
        """OpenSSL lists six ciphers, with these descriptions."""
        given = "-provider-path", modules, "-provider", "keywrap"
        output = run("openssl", "list", "-verbose", "-cipher-algorithms", *given)
        found = [
            re.search("description: (.*)", part)
            for part in output.split("@ keywrap\n")[1:]
        ]
        assert sorted(match[1] if match else "" for match in found) == [
            *["AES Key Wrap (RFC 3394), proved"] * 3,
            *["AES Key Wrap with Padding (RFC 5649), proved"] * 3,
        ]

    def test_enc(self, ours):
        plain = ["-id-aes256-wrap", "-iv", "a6" * 8]
        padded = [
            "-id-aes256-wrap-pad",
            "-iv",
            "a65959a6",
        ]
        assert enc(KEY16, *plain, env=ours) == WRAPPED32
        assert enc(WRAPPED32, "-d", *plain, env=ours) == KEY16
        by_theirs = enc(KEY16, *padded)
        assert enc(KEY16, *padded, env=ours) == by_theirs
        assert enc(by_theirs, "-d", *padded, env=ours) == KEY16

    def test_command_of_the_page(self, ours):
        refuses(RESERVED, "bash", "-c", self.COMMAND, env=ours)
        for env in os.environ, {**ours, "OPENSSL_CONF": "none.cnf"}:
            ended = subprocess.run(
                ["bash", "-c", self.COMMAND], capture_output=True, env=env
            )
            assert len(ended.stdout) == 24

    def test_reason_of_a_refusal(self, ours):
        default_iv = "a6" * 8
        unwrap = ["openssl", "enc", "-d", "-id-aes256-wrap", "-iv", default_iv]
        damaged = raw(WRAPPED32[:-1] + "8")
        message = "integrity check failed"
        refuses(message, *unwrap, "-K", KEK32, input=damaged, env=ours)

    @pytest.mark.needs("qemu-x86_64")
    def test_processor_without_sse41(self, ours, modules):
        """Loaded by name it fails with the reason, and OpenSSL's own ciphers serve."""
        openssl = shutil.which("openssl")
        refuses(
            "this processor lacks SSSE3 or SSE4.1",
            *WITHOUT_SSE41,
            openssl,
            "list",
            "-providers",
            "-provider-path",
            modules,
            "-provider",
            "keywrap",
        )
        wrap = [
            openssl,
            "enc",
            "-id-aes256-wrap",
            "-iv",
            "a65959a600000010",
            "-K",
            KEK32,
        ]
        ended = subprocess.run(
            [*WITHOUT_SSE41, *wrap], input=raw(KEY16), capture_output=True, env=ours
        )
        assert len(ended.stdout) == 24
        refuses(RESERVED, *WITH_SSE41, *wrap, input=raw(KEY16), env=ours)

    @pytest.mark.parametrize("is_ours", [True, False])
    def test_cms(self, ours, is_ours):
        """A message of one is read by the other: under a KEK of both, and under one that is agreed on by a key of the
        reader."""
        writer, reader = (ours, None) if is_ours else (None, ours)
        run(*NEW_READER.split())
        pathlib.Path("message").write_text("a message\n")
        for to, by in [
            (["-recip", "cert.pem"], ["-recip", "cert.pem", "-inkey", "key.pem"]),
            (
                ["-secretkey", KEK32, "-secretkeyid", "01"],
                ["-secretkey", KEK32, "-secretkeyid", "01"],
            ),
        ]:
            run(
                "openssl",
                "cms",
                "-encrypt",
                "-aes-256-cbc",
                "-in",
                "message",
                "-out",
                "message.cms",
                "-outform",
                "DER",
                "-binary",
                *to,
                env=writer,
            )
            assert (
                run(
                    "openssl",
                    "cms",
                    "-decrypt",
                    "-in",
                    "message.cms",
                    "-inform",
                    "DER",
                    "-binary",
                    *by,
                    env=reader,
                )
                == "a message\n"
            )
        refuses(
            "integrity check failed",
            "openssl",
            "cms",
            "-decrypt",
            "-in",
            "message.cms",
            "-inform",
            "DER",
            "-secretkey",
            KEK32[:-1] + "0",
            "-secretkeyid",
            "01",
            env=ours,
        )


@pytest.mark.parametrize("command", ["php wrap.php", "ruby wrap.rb", "node wrap.js"])
def test_script(ours, command):
    """A script that knows nothing of the provider, given an initial value, wraps and unwraps. Ours refuses a reserved
    one."""
    program, script = command.split()
    need(program)
    output = run(program, OWN / script, "a6" * 8, env=ours)
    assert WRAPPED32 in output
    assert KEY16 in output
    refuses(RESERVED, program, OWN / script, "a65959a600000010", env=ours)
    assert KEY16 in run(program, OWN / script, "a65959a600000010")


def test_python(ours):
    """`import ssl` loads it."""
    libcrypto = run(
        "python3", "-c", 'import ssl; print(open("/proc/self/maps").read())'
    )
    path = re.search(r"\S*/libcrypto\.so\.3$", libcrypto, re.M)
    if not path:
        pytest.skip(
            "no python3 whose ssl is over a shared libcrypto.so.3 (apt-get install python3)"
        )
    assert "keywrap" in run("python3", OWN / "who.py", path[0], env=ours)
    assert "default" in run("python3", OWN / "who.py", path[0])
