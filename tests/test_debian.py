"""Debian's packages: how they are built, and that they work as installed, in a copy of this machine's root
directory. test_handed_out.py compares their files and fields."""

import gzip
import os
import pathlib
import re
import subprocess

import pytest

from builds import ROOT, package_of, run
from program import slow
from test_recipes import typed_and_shown
from vectors import WRAPPED16, WRAPPED24

pytestmark = slow

PACKAGES = [
    "keywrap",
    "keywrap-openssl-provider",
    "keywrap-rotate",
    "libkeywrap-dev",
    "libkeywrap1",
    "python3-keywrap",
]


def test_portable_package_takes_the_place_of_the_other():
    """Both have /usr/bin/keywrap."""
    control = (ROOT / "packaging/debian-portable/control").read_text()
    assert (
        len(re.findall("^(?:Provides|Conflicts|Replaces): keywrap$", control, re.M))
        == 3
    )


@pytest.mark.needs("dh", "dpkg-buildpackage")
def test_documents_of_portable_package():
    """The changelog is Debian's, since CHANGELOG.md has another form, and a copyright file says what may be done."""
    run("make", "-s", "-C", ROOT, "dist-deb", f"DIST={os.getcwd()}")
    run("sh", "-c", "dpkg-source -x keywrap-portable_*.dsc package")
    run("dh_installdocs", cwd="package")
    run("debian/rules", "override_dh_installchangelogs", cwd="package")
    documents = pathlib.Path(
        "package/debian/keywrap-portable/usr/share/doc/keywrap-portable"
    )
    assert sorted(os.listdir(documents)) == [
        "CHANGELOG.md",
        "SECURITY.md",
        "changelog",
        "copyright",
    ]
    first, *_ = (documents / "changelog").read_text().splitlines()
    assert re.fullmatch(r"keywrap-portable \(\S+\) unstable; urgency=\w+", first)


def test_packages(debs):
    assert {*debs.glob("*.deb")} == {package_of(debs, name) for name in PACKAGES}


def test_hardened_build(debs):
    """The provider is compiled with Debian's flags, of which -z now is only there with hardening=+all."""
    (line,) = re.findall(r"^cc .* c/provider/\*\.c", (debs / "log").read_text(), re.M)
    assert {
        "-fstack-protector-strong",
        "-D_FORTIFY_SOURCE=2",
        "-Wl,-z,relro",
        "-Wl,-z,now",
    } <= {*line.split()}


def test_python_of_debian(debs):
    """Debian's Python builds the extension, although another one is first on the PATH."""
    calls = (debs / "calls").read_text()
    assert calls
    assert "-m build" not in calls


@pytest.mark.needs("lintian")
def test_lintian(debs):
    """Its only error is that no licence has been given."""
    output = run("lintian", "--fail-on", "none", *debs.glob("*.changes"))
    assert {line for line in output.splitlines() if line.startswith("E: ")} == {
        f"E: {name}: no-copyright-file" for name in PACKAGES
    }


# A root directory that shows this machine's, and keeps what is written in over/upper.
IN_ROOT = (
    "mount -t tmpfs none over && mkdir over/upper over/work && mount -t overlay overlay "
    "-o lowerdir=/,upperdir=over/upper,workdir=over/work merged && "
)


def in_root(debs, script, **files):
    """Installs the packages, runs the script in the directory /tmp with these files, and removes the packages. Returns
    the lines of /tmp/found, and the files that are left."""
    for name in "over", "merged", "files":
        os.mkdir(name)
    for name, text in {
        **files,
        "inside": f"cd /tmp\nexport PATH=/usr/sbin:/usr/bin:/sbin:/bin\n{script}",
    }.items():
        pathlib.Path("files", name).write_text(text)
    script = f"""
        dpkg --root="$PWD/merged" -i {debs}/*.deb
        mount -t tmpfs none merged/tmp && cp files/* merged/tmp
        mount --rbind /proc merged/proc && mount --rbind /dev merged/dev
        chroot merged bash -eu /tmp/inside && cp merged/tmp/found found
        dpkg --root="$PWD/merged" -P {" ".join(PACKAGES)}
        find over/upper ! -type c -path '*keywrap*' >left"""
    ended = subprocess.run(
        ["unshare", "-m", "bash", "-euc", IN_ROOT + script],
        stdin=subprocess.DEVNULL,
        capture_output=True,
        text=True,
        timeout=1200,
    )
    assert ended.returncode == 0, ended.stdout[-1500:] + ended.stderr[-1500:]
    return (
        pathlib.Path("found").read_text().splitlines(),
        pathlib.Path("left").read_text(),
    )


@pytest.mark.needs(
    "root", "overlay of the root directory", "cc", "openssl", "pkg-config", "zsh"
)
def test_installed_in_use_and_removed(debs):
    """README's commands, the provider, the Python package and the C library work, and zsh finds its completion."""
    example = re.search(
        r"^    \$ \(umask.*?^$", (ROOT / "README.md").read_text(), re.M | re.S
    )[0]
    lines = [line.removeprefix("    ") for line in example.splitlines()]
    typed = [
        line[2:].replace("./keywrap", "keywrap")
        for line in lines
        if line.startswith("$ ")
    ]
    found, left = in_root(
        debs,
        r"""
sh -e example >found
openssl list -providers -provider keywrap | grep -F 'keywrap: AES Key Wrap, proved' >>log
python3 -c 'import keywrap; print(keywrap.wrap(bytes(range(16)), bytes(range(0, 256, 17))).hex())' >>found
cc /usr/share/doc/libkeywrap-dev/examples/c/wrap.c $(pkg-config --cflags --libs keywrap) -o wrap
./wrap | grep '^wrap: done: ' >>found
keywrap-rotate --version | grep '^keywrap-rotate 1' >>log
zsh -fc 'autoload -U compinit && compinit -D -u && print -r -- $_comps[keywrap]' >>found
""",
        example="\n".join(typed) + "\n",
    )
    answers = [line for line in lines if line and not line.startswith("$ ")]
    assert len(answers) == 2
    # After README's answers come Python's, that of the example in C, and zsh's.
    assert found == [*answers, WRAPPED16, f"wrap: done: {WRAPPED24}", "_keywrap"]
    assert left == ""


@pytest.mark.parametrize(
    "package, name",
    [
        ("keywrap", "Before you trust a file"),
        ("libkeywrap-dev", "A KEK that never leaves a token"),
    ],
)
@pytest.mark.needs(
    "root",
    "overlay of the root directory",
    "cc",
    "openssl",
    "pkg-config",
    "softhsm2-util",
    "pkcs11.h of p11-kit",
)
def test_recipe_of_a_package(debs, handed_out, package, name):
    """The lines of an installed RECIPES.md run with what is installed."""
    (page,) = (handed_out(f"deb {package}") / "usr/share/doc" / package).glob(
        "RECIPES.md*"
    )
    text = (
        gzip.decompress(page.read_bytes()).decode()
        if page.suffix == ".gz"
        else page.read_text()
    )
    typed, shown = typed_and_shown(
        re.search(rf"^## {name}$(.*?)^## ", text, re.M | re.S)[1]
    )
    assert typed
    assert shown
    examples = "/usr/share/doc/libkeywrap-dev/examples"
    script = (
        f"mkdir here && cd here && EXAMPLES={examples} bash -u ../recipe >../found 2>&1"
    )
    assert in_root(debs, script, recipe=typed)[0] == shown.splitlines()


def test_maintainers():
    """No address claims to be of Debian."""
    for control in ROOT.glob("packaging/debian*/control"):
        assert re.search(
            "^Maintainer: keywrap developers <.*[.]invalid>$", control.read_text(), re.M
        ), control


def test_symbols(debs):
    """A package that uses libkeywrap1 depends on the version that has its calls."""
    symbols = run(
        "dpkg-deb", "-I", package_of(debs, "libkeywrap1"), "symbols"
    ).splitlines()
    since = dict(re.findall(r"^ (keywrap_\w+)@\w+\S* (.*)$", "\n".join(symbols), re.M))
    assert symbols[0].startswith("libkeywrap.so.1 libkeywrap1 ")
    assert since["keywrap_wrap"] == "1.0.0"
    assert since["keywrap_rewrap_many"].startswith("1.1.0~")
    assert since["keywrap_kek_init"].startswith("1.2.0~")
    assert since.keys() == {
        *re.findall(r"(keywrap_\w+);", (ROOT / "c/include/keywrap.map").read_text())
    }
