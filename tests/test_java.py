"""The provider for Java: rows.txt; its names, exceptions and calls compared with the JDK's; the lines of
java/README.md. The programs are in java/."""

import os
import pathlib
import re
import shutil
import subprocess
import zipfile

import pytest

import faces
from builds import NAMES, ROOT, alone, run
from hardware.bugs import plant
from program import all_of, slow
from tools import need

pytestmark = pytest.mark.needs("javac", "jna.jar")

SOURCES = sorted((ROOT / "java/keywrap").glob("*.java"))
PROGRAMS = ROOT / "tests/java"
JNA = pathlib.Path("/usr/share/java/jna.jar")


def compiled(directory, path, *sources):
    path = ":".join(map(str, [directory, *path]))
    run("javac", "-Xlint:all,-path", "-Werror", "-d", directory, "-cp", path, *sources)


@pytest.fixture(scope="session")
def classes(once):
    """The provider, the example and the programs, compiled without a warning."""
    programs = [
        ROOT / "java/Example.java",
        *(PROGRAMS / f"{name}.java" for name in ("Checks", "Cleared", "Heap")),
    ]
    return once(
        "java-classes",
        lambda directory: compiled(directory, [JNA], *SOURCES, *programs),
    )


@pytest.fixture
def java(classes, library):
    """java("Checks", "names") runs a class over the library."""

    def call(name, *args, **options):
        settings = [
            f"-Djna.library.path={library}",
            f"-Djava.io.tmpdir={os.getcwd()}",
        ]
        class_path = f"{classes}:{JNA}"
        return run("java", *settings, "-cp", class_path, name, *args, **options)

    return call


def test_no_warning_for_java_11():
    """Compiles the provider and the example."""
    run(
        "javac",
        *"-Xlint:all -Werror --release 11 -d . -cp".split(),
        JNA,
        *SOURCES,
        ROOT / "java/Example.java",
    )


@pytest.mark.parametrize(
    "made",
    ["names 1158", "values 10", "calls 416", "ignored 32", "keys 8", "cleared 12"],
)
def test_compared(java, made):
    """It prints its name, how often it has compared, and the numbers of the library's version."""
    assert (
        java("Checks", made.split()[0])
        == f"{made} {NAMES['VERSION'].removesuffix('-dev')}\n"
    )


def test_limited_policy(java):
    """With crypto.policy=limited, as with the JDK's ciphers, only a KEK of 16 bytes is taken."""
    pathlib.Path("limited").write_text("crypto.policy=limited\n")
    java(
        "Checks",
        "names",
        env={**os.environ, "JAVA_TOOL_OPTIONS": "-Djava.security.properties=limited"},
    )


@pytest.mark.parametrize("name", all_of(["rows", "more", "foreign", "nist"], ["rows"]))
def test_rows(java, name):
    faces.check("java", lambda text: java("Checks", "rows", input=text), name)


def test_self_test(java, tmp_path):
    """There is no provider over a library that computes something else."""
    for name in "keywrap.c", "keywrap.h", "keywrap_steps.h":
        shutil.copy(ROOT / "dist" / name, tmp_path)
    plant("portable", "rotation-to-the-other-side", tmp_path)
    run(
        "cc",
        "-std=c99",
        "-O1",
        "-shared",
        "-fPIC",
        "-DKEYWRAP_NO_AES_INSTRUCTIONS",
        tmp_path / "keywrap.c",
        "-o",
        tmp_path / "wrong.so",
    )
    with pytest.raises(AssertionError, match="the self test of the library failed"):
        java(
            "Checks",
            "names",
            env={
                **os.environ,
                "JAVA_TOOL_OPTIONS": f"-Dkeywrap.library={tmp_path}/wrong.so",
            },
        )


def test_other_library(java, handed_out):
    """Loads the library by its path, in the property keywrap.library."""

    def called(path):
        env = {**os.environ, "JAVA_TOOL_OPTIONS": f"-Dkeywrap.library={path}"}
        faces.check(
            "java", lambda text: java("Checks", "rows", input=text, env=env), "rows"
        )

    called(handed_out("hardware") / "lib/libkeywrap_hw.so.1")
    with pytest.raises(AssertionError, match="cannot load /none.so"):
        called("/none.so")


@pytest.mark.needs("/proc")
def test_native_memory_is_cleared(java):
    assert java("Cleared", env={**os.environ, "MALLOC_ARENA_MAX": "1"}) == "\n"


def test_heap_is_cleared(java):
    """It is cleared also of arrays that the cipher has replaced, and of results that it has copied."""
    env = {**os.environ, "JAVA_TOOL_OPTIONS": "-Xmn256m -XX:+UseSerialGC"}
    assert java("Heap", os.path.abspath("heap.hprof"), env=env) == "0\n"


class TestReadme:
    """The lines of the page, over a copy of the directories that they name, without the kit and without a network."""

    LINES = re.findall(r"^    (.*)", (ROOT / "java/README.md").read_text(), re.M)
    BUILD = LINES[:3]
    EXAMPLE = LINES[3:4]
    UNCHANGED = LINES[4:]
    # It knows nothing of the provider.
    PROGRAM = """
public class Program {
    public static void main(String[] args) throws Exception {
        for (String name : new String[] {"AESWrap", "AES/KWP/NoPadding", "AES/CBC/PKCS5Padding"})
            System.out.println(javax.crypto.Cipher.getInstance(name).getProvider().getName());
    }
}
"""

    @pytest.fixture
    def tried(self):
        """Runs lines after those that build the library and the provider."""
        need("no network", "cc")
        pathlib.Path("Program.java").write_text(self.PROGRAM)
        run("javac", "Program.java")
        output = subprocess.run(
            ["java", "-XshowSettings:properties", "-version"],
            capture_output=True,
            text=True,
        ).stderr
        home = re.search(r"java\.home = (.*)", output)[1]
        for name in "dist", "java":
            shutil.copytree(
                ROOT / name,
                name,
                ignore=shutil.ignore_patterns("*.o", "*.a", "*.so.1", "target"),
            )

        def call(lines):
            return subprocess.run(
                alone(self.BUILD + lines, JAVA_HOME=home),
                capture_output=True,
                text=True,
            )

        return call

    def test_lines(self, tried):
        ended = tried(self.EXAMPLE + self.UNCHANGED)
        assert ended.stdout.splitlines()[-5:] == [
            "true",
            "Keywrap b595a1c0afbe7a89ce43807cb3b2ba5737ff5d71d0a35cd7",
            "Keywrap",
            "Keywrap",
            "SunJCE",
        ], ended
        with zipfile.ZipFile("out/keywrap.jar") as jar:
            assert b"Implementation-Title: keywrap" in jar.read("META-INF/MANIFEST.MF")
            assert (
                jar.read("META-INF/services/java.security.Provider")
                == b"keywrap.KeywrapProvider\n"
            )

    @slow
    def test_without_the_library(self, tried):
        """The example fails with the file that was looked for. The program takes the JDK's ciphers."""
        gone = ["rm dist/libkeywrap.so.1"]
        reason = "cannot load libkeywrap.so.1 from -Djna.library.path=dist, nor from the system's directories"
        assert reason in tried(gone + self.EXAMPLE).stderr
        assert tried(gone + self.UNCHANGED).stdout.splitlines()[-3:] == ["SunJCE"] * 3


@slow
@pytest.mark.needs("mvn", "mvn, compiler", "mvn, jar", "no network")
def test_maven():
    """The pom builds the jar, with the same manifest and services, over Debian's packages in the place of Maven's
    repository."""
    shutil.copytree(ROOT / "java", "java")
    mirror = (
        "<id>debian</id><mirrorOf>*</mirrorOf><url>file:///usr/share/maven-repo</url>"
    )
    pathlib.Path("settings.xml").write_text(
        f"<settings><mirrors><mirror>{mirror}</mirror></mirrors></settings>"
    )
    run(*alone(["mvn -q -B -s settings.xml -f java/pom.xml package"], HOME=os.getcwd()))
    with zipfile.ZipFile(f"out/maven/keywrap-{NAMES['VERSION']}.jar") as jar:
        names = {
            name
            for name in jar.namelist()
            if not name.endswith("/") and "/maven/" not in name
        }
        assert {name for name in names if "$" not in name} == {
            "META-INF/MANIFEST.MF",
            "META-INF/services/java.security.Provider",
            *(f"keywrap/{path.stem}.class" for path in SOURCES),
        }
        assert (
            f"Implementation-Version: {NAMES['VERSION']}"
            in jar.read("META-INF/MANIFEST.MF").decode()
        )
