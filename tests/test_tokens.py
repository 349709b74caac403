"""KEKs in a token outside Python: 5,000 keys are rewrapped in 48 calls of SoftHSM, by C, Go and Rust. test_python.py
has Python's row."""

import pathlib
import re
import shutil

import pytest

import tokens
from builds import ROOT, run

pytestmark = pytest.mark.needs("softhsm2-util", "pkcs11.h of p11-kit", "pkg-config")

DIST = ROOT / "dist"


@pytest.mark.needs("cc")
def test_c():
    """token.c, which compares each key with the token's own C_WrapKey."""
    env = tokens.environment()
    flags = run("pkg-config", "--cflags", "p11-kit-1").split()
    sources = ROOT / "c/examples/c/token.c", DIST / "keywrap.c"
    run("cc", "-O2", "-I", DIST, *flags, *sources, "-ldl", "-o", "token")
    output = run("./token", tokens.MODULE, tokens.PIN, "5000", env=env)
    assert "many: 4999 keys rewrapped in 48 calls of the token, 1 refused\n" in output
    (rate,) = re.findall("^([0-9]+) keys a second of the processor$", output, re.M)
    assert int(rate) > tokens.LEAST


@pytest.mark.needs("go", "cc")
def test_go():
    env = tokens.environment()
    program = pathlib.Path("program")
    program.mkdir()
    for name in "main.go", "ecb.c", "ecb.h":
        shutil.copy(tokens.SOURCES / name, program)
    module = "keywrap.example/keywrap"
    (program / "go.mod").write_text(
        f"module example.org/token\n\ngo 1.19\n\nrequire {module} v0.0.0\n\nreplace {module} => {DIST}\n"
    )
    flags = run("pkg-config", "--cflags", "p11-kit-1").strip()
    go = {**env, "CGO_CFLAGS": f"-O2 {flags}", "GOPROXY": "off"}
    run("go", "build", "-o", "token", ".", cwd=program, env=go)
    assert tokens.check("program/token", env=env) > tokens.LEAST


@pytest.mark.needs("cargo", "cc", "crates of Debian", "no network")
def test_rust():
    env = tokens.environment()
    library = tokens.library_over_token()
    pathlib.Path("program/src").mkdir(parents=True)
    pathlib.Path("program/.cargo").mkdir()
    shutil.copy(tokens.SOURCES / "main.rs", "program/src")
    pathlib.Path("program/Cargo.toml").write_text(
        '[package]\nname = "token"\nversion = "0.0.0"\nedition = "2021"\n'
        f'[dependencies]\nkeywrap = {{ path = "{DIST}" }}\n'
    )
    page = (DIST / "RUST.md").read_text()
    offline = "".join(re.findall(r"^    (source\..*\n)", page, re.M))
    pathlib.Path("program/.cargo/config.toml").write_text(offline)
    linked = {**env, "RUSTFLAGS": f"-L {library} -C link-arg=-Wl,-rpath,{library}"}
    target = pathlib.Path("target").absolute()
    words = "build", "--release", "--offline", "--target-dir", target
    run("cargo", *words, cwd="program", env=linked)
    assert tokens.check(target / "release/token", env=env) > tokens.LEAST
