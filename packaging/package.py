#!/usr/bin/env python3
"""Builds the release artifacts. packaging/Makefile calls it at the top of the repository.

usage: package.py documents DIRECTORY MACHINE README DOCUMENT..   copies documents, and README from its template
       package.py headers DIRECTORY                 copies the headers of dist/ as those of the C library
       package.py archive DIRECTORY FILE            packs a directory that make installed into
       package.py files NAME FILE SOURCE..          packs copies of files in a directory of this name
       package.py debian NAME DIRECTORY             packs the command in C as a source package for Debian
       package.py npm DIRECTORY                     puts the package for browsers, Node and Deno together
       package.py go DIRECTORY FILE..               packs files of dist/ as a Go module, as a module proxy has it
       package.py needs PYTHON [Python.h]           fails if this Python lacks what builds the package for Python
       package.py wheel PYTHON LIBRARY FILE [SYSROOT]   builds the wheel (SYSROOT: for another machine, by CC)
       package.py rotate PYTHON FILE                builds the wheel of the rotation
       package.py sdist PYTHON FILE                 builds the source distribution
       package.py lists FILE..                      writes keywrap-VERSION.cdx.json and SHA256SUMS beside the files

The same sources and SOURCE_DATE_EPOCH always give the same bytes."""

import base64
import hashlib
import json
import os
import pathlib
import re
import shutil
import subprocess
import sys
import tempfile
import zipfile

VERSION = pathlib.Path("VERSION").read_text().strip()
PROCESSORS = {
    "x86_64": "x86-64 with SSE4.1",
    "aarch64": "aarch64 (any 64-bit Arm processor)",
}
PYTHON_PACKAGES = ("build", "cffi", "setuptools", "wheel")
LACKING = f"""import importlib.util, os, sys, sysconfig
has_headers = os.path.exists(os.path.join(sysconfig.get_path("include"), "Python.h"))
sys.path.pop(0)
print(*(f"python3-{{name}}" for name in {PYTHON_PACKAGES} if not importlib.util.find_spec(name)),
      *(["python3-dev"] if sys.argv[1:] and not has_headers else []))"""
HEADERS = ("keywrap.h", "keywrap_steps.h")
BUILT = ("keywrap", "keywrap_c", "keywrap_wasm")


def with_links(text, names=()):
    """A document for the directory share/doc/keywrap. Links to the documents beside it, headers, examples and the
    provider for Java lead there. Other links become plain text, and pictures go."""
    any_name = "|".join(names)
    places = [
        (r"((?:https?:|#).*)", r"\1"),
        (rf"(?:\.\./|docs/)?((?:{any_name})\.md.*)", r"\1"),
        (r"\.\./dist/(keywrap\w*\.h.*)", r"../../../include/\1"),
        (r"\.\./(?:c/)?((?:examples|java)/.*)", r"\1"),
    ]

    def link(found):
        words, target = found.groups()
        for pattern, place in places:
            there = re.fullmatch(pattern, target, re.S)
            if there:
                new_target = there.expand(place)
                return f"[{words}]({new_target})"
        return words

    pictures = r"!\[[^]]*\]\([^)]*\)\n*|<img [^>]*>\n*"
    without_pictures = re.sub(pictures, "", text)
    return re.sub(r"\[([^]]*)\]\(([^)]*)\)", link, without_pictures)


def write_with_links(source, page, names=()):
    """Copies a document with the links that lead somewhere there."""
    text = pathlib.Path(source).read_text()
    page.write_text(with_links(text, names))


def made_directory(path):
    """The path of a directory that is there afterwards."""
    directory = pathlib.Path(path)
    directory.mkdir(parents=True, exist_ok=True)
    return directory


def documents(directory, machine, readme, *paths):
    directory = made_directory(directory)
    templates = pathlib.Path("packaging/templates")
    whole = (templates / "README.in").read_text()
    # Other READMEs have its lines on the files, from this one on.
    first = "    bin/keywrap"
    lines = first + whole.partition(first)[2]
    version_of_library = VERSION.replace("-", "~")
    values = {
        "VERSION": VERSION,
        "SHARED": f"libkeywrap.so.{version_of_library}",
        "PROCESSORS": PROCESSORS[machine],
        "MACHINE": machine.replace("_", "-"),
    }
    text = (templates / f"{readme}.in").read_text()
    text = text.replace("@LINES@\n", lines)
    for name, value in values.items():
        text = text.replace(f"@{name}@", value)
    (directory / readme).write_text(text)
    pages = [pathlib.Path(path) for path in paths]
    names = [page.stem for page in pages]
    for page in pages:
        write_with_links(page, directory / page.name, names)


def pack(directory, file):
    """Packs a directory. Order, owner, time and all modes except the x bit are fixed."""
    file = pathlib.Path(file).absolute()
    file.parent.mkdir(parents=True, exist_ok=True)
    new = file.with_name(f"{file.name}.new")
    epoch = os.environ["SOURCE_DATE_EPOCH"]
    fixed = [
        "--sort=name",
        "--format=ustar",
        "--owner=0",
        "--group=0",
        "--numeric-owner",
        "--mode=u=rwX,go=rX",
        f"--mtime=@{epoch}",
    ]
    command = ["tar", "-C", directory.parent, *fixed, "-I", "gzip -9n"]
    subprocess.run([*command, "-cf", new, directory.name], check=True)
    new.rename(file)
    print(file)


def headers(directory):
    """Without the lines by which keywrap.h says that it is of portable C."""
    directory = made_directory(directory)
    lines = r"^#if !defined\(KEYWRAP_PORTABLE\) &&.*\n.*\n#endif\n"
    for name in HEADERS:
        text = pathlib.Path("dist", name).read_text()
        without_lines = re.sub(lines, "", text, flags=re.M)
        (directory / name).write_text(without_lines)


def archive(directory, file):
    """The README is at the top, too, and the library is found relative to keywrap.pc."""
    directory = pathlib.Path(directory)
    (readme,) = directory.glob("share/doc/keywrap/README*")
    shutil.copy(readme, directory / "README")
    prefix = "prefix=${pcfiledir}/../.."
    for pc in directory.glob("lib/pkgconfig/keywrap.pc"):
        text = re.sub("^prefix=.*", prefix, pc.read_text(), flags=re.M)
        pc.write_text(text)
    pack(directory, file)


def files(name, file, *sources):
    with tempfile.TemporaryDirectory() as workdir:
        workdir = pathlib.Path(workdir, name)
        workdir.mkdir()
        for source in map(pathlib.Path, sources):
            if source.is_dir():
                # Files that `make -C theory` has built are not packed.
                ignored = shutil.ignore_patterns("out")
                shutil.copytree(source, workdir / source.name, ignore=ignored)
            else:
                shutil.copy(source, workdir)
        for page in workdir.rglob("*.md"):
            write_with_links(page, page)
        pack(workdir, file)


def debian(name, directory):
    """The C, the manual page, the completions and debian/. dpkg-buildpackage builds it on any machine."""
    directory = made_directory(directory).absolute()
    with tempfile.TemporaryDirectory() as workdir:
        tree = pathlib.Path(workdir, name)
        debian_tree(tree)
        command = ["dpkg-source", "-b", tree]
        subprocess.run(command, cwd=directory, check=True, stdout=subprocess.DEVNULL)
    print(*directory.glob(f"{name}.dsc"))


def debian_tree(tree):
    """Writes what the source package for Debian has."""
    shutil.copytree("packaging/debian-portable", tree / "debian")
    changes = pathlib.Path("packaging/debian/changelog").read_text()
    changes = re.sub(r"^keywrap \(", "keywrap-portable (", changes, flags=re.M)
    (tree / "debian/changelog").write_text(changes)
    shutil.copytree("dist/command", tree / "command")
    shutil.copy("dist/Makefile", tree)
    shutil.copy("command/man/keywrap.1", tree)
    names = "keywrap.bash", "_keywrap", "keywrap.fish"
    completions = [tree / "completions" / name for name in names]
    subprocess.run(["generate/completions.py", *completions], check=True)
    for page in "SECURITY.md", "CHANGELOG.md":
        write_with_links(page, tree / page)
    for path in [tree, *tree.rglob("*")]:
        is_executable = path.is_dir() or path.name == "rules"
        path.chmod(0o755 if is_executable else 0o644)


def npm(directory):
    directory = made_directory(directory).absolute()
    wasm = pathlib.Path("dist/keywrap.wasm")
    js = pathlib.Path("js")
    for path in [wasm, *js.iterdir()]:
        if path.suffix in (".wasm", ".js", ".mjs", ".cjs", ".ts", ".html"):
            shutil.copyfile(path, directory / path.name)
    content = wasm.read_bytes()
    module = base64.b64encode(content).decode()
    comment = "// The bytes of keywrap.wasm in base64.\n"
    (directory / "module.js").write_text(f"{comment}export default '{module}';\n")
    write_with_links(js / "README.md", directory / "README.md")
    template = (js / "package.json.in").read_text()
    package = template.replace("@VERSION@", VERSION)
    (directory / "package.json").write_text(package)
    print(directory)


def files_in(paths):
    """The files, and all files in the directories, in order."""
    found = []
    for path in map(pathlib.Path, paths):
        if path.is_dir():
            found += path.rglob("*")
        else:
            found.append(path)
    return sorted(path for path in found if path.is_file())


def go(directory, *paths):
    root = pathlib.Path("dist")
    go_mod = (root / "go.mod").read_text()
    module = re.match("module (.*)\n", go_mod)[1]
    version = f"v{VERSION}"
    place = made_directory(pathlib.Path(directory, module, "@v"))
    archive = place / f"{version}.zip"
    with zipfile.ZipFile(archive, "w", zipfile.ZIP_DEFLATED) as packed:
        for file in files_in(paths):
            name = file.relative_to(root)
            member = zipfile.ZipInfo(f"{module}@{version}/{name}")
            member.compress_type = zipfile.ZIP_DEFLATED
            # A regular file that its owner can write, and all can read.
            member.external_attr = 0o100644 << 16
            packed.writestr(member, file.read_bytes())
    shutil.copyfile(root / "go.mod", place / f"{version}.mod")
    info = json.dumps({"Version": version, "Time": "2026-01-01T00:00:00Z"})
    (place / f"{version}.info").write_text(f"{info}\n")
    (place / "list").write_text(f"{version}\n")
    print(directory)


def needs(python, *headers):
    lacks = "python3"
    if shutil.which(python):
        command = [python, "-c", LACKING, *headers]
        run = subprocess.run(command, capture_output=True, text=True)
        if run.returncode == 0:
            lacks = run.stdout.strip()
    if lacks:
        sys.exit(
            f"PYTHON='{python}' lacks what builds the wheel: apt-get install {lacks}, or name another Python, as "
            "PYTHON=/usr/bin/python3"
        )


def copied_package(source, package):
    """Copies the sources of a Python package, without what Python and `pip install` leave in them."""
    shutil.rmtree(package, ignore_errors=True)
    left = shutil.ignore_patterns("__pycache__", "build", "*.egg-info", "*.so")
    shutil.copytree(source, package, ignore=left, copy_function=shutil.copyfile)
    shutil.copyfile("VERSION", package / "VERSION")
    write_with_links(pathlib.Path(source, "README.md"), package / "README.md")


def built_package(python, kind, package, directory, env=None):
    """Builds a wheel or a source distribution of a copied package in the directory."""
    directory.mkdir(parents=True, exist_ok=True)
    options = [f"--{kind}", "--no-isolation", "--outdir", directory, package]
    built = subprocess.run(
        [python, "-m", "build", *options],
        env=env,
        stdout=subprocess.PIPE,
        stderr=subprocess.STDOUT,
        text=True,
    )
    if built.returncode:
        sys.exit(built.stdout.strip())


def python_package(python, kind, package, directory, sources, env=None):
    """Builds the Python package in a directory, from a copy of its sources with the files that it needs beside them."""
    copied_package("python", package)
    for name, source in sources.items():
        shutil.copyfile(source, package / name)
    shutil.copytree("dist/command", package / "command")
    built_package(python, kind, package, directory, env)


def rotate(python, file):
    """Builds the wheel of the rotation, with the page for operators."""
    file = pathlib.Path(file)
    with tempfile.TemporaryDirectory() as workdir:
        package = pathlib.Path(workdir, "rotation")
        copied_package("rotation", package)
        write_with_links("docs/ROTATION.md", package / "ROTATION.md")
        built_package(python, "wheel", package, file.parent)
    print(file)


def variables_for_another_machine(sysroot, platform):
    """The environment in which setuptools builds with CC for the machine of this sysroot."""
    include = pathlib.Path(sysroot, "usr/include")
    python_headers = next(include.glob("python3.*"))
    own_flags = os.environ.get("CFLAGS", "")
    compiler = os.environ["CC"]
    machine = platform.removeprefix("manylinux_2_17_")
    return {
        "CFLAGS": f"-I{python_headers} -idirafter {include} {own_flags}",
        "LDSHARED": f"{compiler} -shared",
        "_PYTHON_HOST_PLATFORM": f"linux-{machine}",
    }


def wheel(python, library, file, sysroot=None):
    """It uses the processor's AES if it can. It needs no symbol of glibc that is newer than 2.17: tests/test_dist.py
    checks this."""
    file = pathlib.Path(file)
    platform = file.stem.rpartition("-")[2]
    # The command in C needs no library of the system.
    env = {**os.environ, "COMMAND_LDFLAGS": "-static"}
    if sysroot:
        env.update(variables_for_another_machine(sysroot, platform))
    with tempfile.TemporaryDirectory() as workdir:
        headers(workdir)
        options = pathlib.Path(workdir, "options")
        options.write_text(f"[bdist_wheel]\nplat_name = {platform}\n")
        sources = {name: f"{workdir}/{name}" for name in HEADERS}
        sources["setup.cfg"] = options
        sources["libkeywrap_hw.a"] = f"{library}/libkeywrap_hw.a"
        package = pathlib.Path(library, "python")
        python_package(python, "wheel", package, file.parent, sources, env)
    print(file)


def sdist(python, file):
    """The package with the C of dist/, which pip builds on any machine."""
    sources = {name: f"dist/{name}" for name in ("keywrap.c", *HEADERS)}
    name = pathlib.Path(file).name
    with tempfile.TemporaryDirectory() as workdir:
        workdir = pathlib.Path(workdir)
        python_package(python, "sdist", workdir / "package", workdir, sources)
        shutil.unpack_archive(workdir / name, workdir)
        # Packed again, so that the same sources always give the same bytes.
        pack(workdir / name.removesuffix(".tar.gz"), file)


def linked_crates():
    """The crates that the program and the libraries need, directly or not, and that are not in this repository."""
    text = pathlib.Path("crates.txt").read_text()
    lines = re.findall(r"^(\w+)(?: staticlib)?: *(.*)$", text, re.M)
    needs = dict(lines)
    found = set()
    left = list(BUILT)
    while left:
        name = left.pop()
        if name not in found:
            found.add(name)
            left += needs.get(name, "").split()
    others = found - needs.keys()
    return ["std", *sorted(others)]


def hash_of(path):
    return hashlib.sha256(path.read_bytes()).hexdigest()


def kit_that_builds():
    """The version, the logic and the hash of the archive of the kit on the PATH."""
    rt = shutil.which("rt")
    if rt is None:
        sys.exit("package.py: no rt on the PATH")
    kit = pathlib.Path(rt).resolve().parent.parent
    kit_id = (kit / "KIT-ID").read_text().strip()
    name, _, logic = kit_id.partition(" ")
    content = (kit / "WHAT").read_text()
    archive = re.search(r"^archive (\w+)$", content, re.M)[1]
    return name.removeprefix("rattle-kit-"), logic, archive


def component(kind, name, **fields):
    """A component of a bill of materials, which dependencies name by its name."""
    return {"type": kind, "bom-ref": name, "name": name, **fields}


def hashes(content):
    return [{"alg": "SHA-256", "content": content}]


def bill(paths):
    """A bill of materials (SBOM) as CycloneDX 1.4: this version, the kit that built it, the kit's crates that are
    linked in, and the hash of each file."""
    version, logic, archive = kit_that_builds()
    crates = linked_crates()
    kit = {
        "type": "framework",
        "bom-ref": "kit",
        "name": "rattle-kit",
        "version": version,
        "description": f"prover, compilers and library of Rattle, {logic}",
        "hashes": hashes(archive),
    }
    components = [kit]
    for crate in crates:
        library = {
            "type": "library",
            "bom-ref": crate,
            "group": "rattle-kit",
            "name": crate,
            "version": version,
        }
        components.append(library)
    for path in paths:
        digest = hash_of(path)
        file = component("file", path.name, hashes=hashes(digest))
        components.append(file)
    keywrap = component("application", "keywrap", version=VERSION)
    return {
        "bomFormat": "CycloneDX",
        "specVersion": "1.4",
        "version": 1,
        "metadata": {"component": keywrap},
        "components": components,
        "dependencies": [
            {"ref": "keywrap", "dependsOn": crates},
            {"ref": "kit", "dependsOn": crates},
        ],
    }


def lists(*paths):
    """Both lists are written completely or not at all."""
    paths = [pathlib.Path(path) for path in paths]
    directory = paths[0].parent
    new = directory / "list.new"
    materials = directory / f"keywrap-{VERSION}.cdx.json"
    text = json.dumps(bill(paths), indent=2)
    new.write_text(f"{text}\n")
    new.rename(materials)
    with open(new, "w") as sums:
        for path in [*paths, materials]:
            sums.write(f"{hash_of(path)}  {path.name}\n")
    new.rename(directory / "SHA256SUMS")
    print(directory / "SHA256SUMS")


GOALS = (
    documents,
    headers,
    archive,
    files,
    debian,
    npm,
    go,
    needs,
    wheel,
    rotate,
    sdist,
    lists,
)


def main(name=None, *arguments):
    for goal in GOALS:
        if goal.__name__ == name:
            return goal(*arguments)
    sys.exit(__doc__)


if __name__ == "__main__":
    os.umask(0o022)
    main(*sys.argv[1:])
