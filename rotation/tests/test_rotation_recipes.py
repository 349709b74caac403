"""The lines of docs/ROTATION.md, as they are, and the example for a Secret."""

import base64
import fcntl
import importlib
import json
import os
import pathlib
import re
import shutil
import subprocess
import sys
import textwrap
import types

import pytest
import softhsm
from rotation_help import KEK, wrapped_under

ROOT = pathlib.Path(__file__).resolve().parents[2]
PAGE = (ROOT / "docs/ROTATION.md").read_text(encoding="utf-8")
SECTIONS = PAGE.split("\n## ")
PROGRAM = os.environ.get("KEYWRAP") or str(ROOT / "keywrap")


@pytest.fixture
def environment(tmp_path):
    """The variables with which a recipe finds the program and this Python."""
    if not os.path.exists(PROGRAM):
        pytest.skip("the program is not built")
    for name in ("bin", "here"):
        (tmp_path / name).mkdir()
    (tmp_path / "bin/keywrap").symlink_to(os.path.abspath(PROGRAM))
    for name, words in ("python3", ""), ("keywrap-rotate", "-m keywrap_rotate"):
        script = f'#!/bin/sh\nexec {sys.executable} {words} "$@"\n'
        (tmp_path / "bin" / name).write_text(script)
        (tmp_path / "bin" / name).chmod(0o755)
    return {
        **os.environ,
        "PATH": f"{tmp_path}/bin:{os.environ['PATH']}",
        "PYTHONDONTWRITEBYTECODE": "1",
    }


KEKS = """openssl rand -hex 32 > kek.hex; openssl rand -hex 32 > new-kek.hex
wrapped() { head -c "$1" /dev/urandom | xxd -p -c 32 | keywrap wrap --lines --kek ${2-kek.hex}; }
"""
TOML = re.search("```toml\n(.*?)```", PAGE, re.S)[1]
STORE = "mkdir store; for n in 1 2; do wrapped 32000 %s > store/$n.hex; done\n"
# Commands before a recipe.
STORES_OF_RECIPES = {
    "Rotate files": STORE % "" + "wrapped 3200 | sed '1i key' > keys.csv\n",
    "Rotate a table": """
wrapped 32000 | sed "s/.*/INSERT INTO keys (key) VALUES (x'&');/
    1i CREATE TABLE keys (id INTEGER PRIMARY KEY, key BLOB); BEGIN;
    \\$a COMMIT;" | sqlite3 keys.db
psql -qc 'CREATE TABLE keys (id bigint PRIMARY KEY, key bytea)'
wrapped 32000 | awk '{ print 1000 + NR "\\t\\\\\\\\x" $0 }' | psql -qc '\\copy keys FROM STDIN'
""",
    "Rotate a table of MariaDB or MySQL": """
cp ../options my.cnf
{ echo 'CREATE OR REPLACE TABLE `keys` (id int AUTO_INCREMENT PRIMARY KEY, `key` blob);'
    wrapped 32000 | sed "s/.*/INSERT INTO \\`keys\\` (\\`key\\`) VALUES (X'&');/"; } | mariadb --defaults-file=my.cnf
""",
    "Rotate objects": 'mkdir bucket; for name in a "c d"; do wrapped 32 > "bucket/$name"; done; ls bucket > manifest\n',
    "Verify before the KEK dies": STORE % "new-kek.hex" + "rm kek.hex\n",
    "Rotate on several machines": "mkdir store; for n in {1..40}; do wrapped 3200 > store/$n; done\n"
    "keywrap-rotate --kek kek.hex --new-kek new-kek.hex --make-challenges >x\n",
    "# Rotate a KEK": "rm new-kek.hex\n",
    "Rotate many KEKs": r"""
mkdir keks
for name in ada bob; do
    for new in "" -new; do openssl rand -hex 32 > keks/$name$new.hex; echo $name=$name$new.hex >> keks/${new:-old}; done
done
mv keks/-new keks/new
{ echo tenant,key; wrapped 1920 keks/ada.hex | sed s/^/ada,/; wrapped 1280 keks/bob.hex | sed s/^/bob,/; } > keys.csv
""",
    "KEKs in tokens": STORE % ""
    + r"""
mkdir tokens
echo "directories.tokendir = $PWD/tokens" > softhsm2.conf
export SOFTHSM2_CONF=$PWD/softhsm2.conf
echo 27182818 > pin
softhsm2-util --init-token --free --label keks --pin 27182818 --so-pin 27182818 > /dev/null
python3 -c "$PUT_KEY" /usr/lib/softhsm/libsofthsm2.so keks 27182818 new-kek $(cat new-kek.hex) 01
""",
    "Rotate several stores": r"""
wrapped 32000 | sed "s/.*/INSERT INTO orders (data_key) VALUES (x'&');/
    1i CREATE TABLE orders (id INTEGER PRIMARY KEY, data_key BLOB); BEGIN;
    \$a COMMIT;" | sqlite3 app.db
mkdir exports
for n in 1 2; do wrapped 3200 | sed '1i key' > exports/$n.csv; done
echo "no key" > exports/readme.txt
"""
    + f"cat > rotate.toml <<'EOF'\n{TOML}EOF\n",
    "Rotate a store of your own": r"""
wrapped 3200 | while read -r key; do echo $key | xxd -r -p | base64 -w 0; echo; done |
    jq -R . | jq -s 'to_entries | map({key: "k\(.key)", value}) | from_entries | {data: .}' > secret.json
""",
}
# Test doubles of the commands of AWS, over files in the directory bucket.
AWS = r"""#!/bin/bash
name=${5#--key=}
case $2 in
    get-object) cp "bucket/$name" "${10}" && b2sum < "${10}" ;;
    put-object) [ "$(b2sum < "bucket/$name")" = "${9}" ] && cp "$7" "bucket/$name" ;;
esac
"""


def recipes():
    """The name, the typed lines and the output of each such recipe."""
    for section in (
        re.sub("```.*?```", "", section, flags=re.S) for section in SECTIONS
    ):
        lines = [
            line.strip() if line.startswith("       ") else line[4:]
            for line in section.splitlines()
            if line.startswith("    ")
        ]
        typed = "\n".join(line[2:] for line in lines if line.startswith(("$ ", "> ")))
        if "keywrap-rotate " in typed or "keywrap_rotate" in typed:
            answer = [
                line.strip() for line in lines if not line.startswith(("$ ", "> "))
            ]
            name = section.splitlines()[0]
            yield pytest.param(
                KEKS + STORES_OF_RECIPES[name] + typed, "\n".join(answer), id=name
            )


@pytest.mark.parametrize("typed, answer", recipes())
def test_recipe(request, typed, answer, tmp_path, environment):
    for tool in ("openssl", "xxd", "sqlite3", "jq", "awk"):
        if re.search(rf"\b{tool}\b", typed) and shutil.which(tool) is None:
            pytest.skip(f"no {tool} (apt-get install openssl xxd sqlite3 jq mawk)")
    if "postgresql" in typed:
        environment.update(request.getfixturevalue("server").environment)
    if "mariadb" in typed:
        request.getfixturevalue("mariadb")
    if "pkcs11:" in typed:
        softhsm.needs_softhsm()
        environment["PUT_KEY"] = softhsm.PUT_KEY
    (tmp_path / "bin/aws").write_text(AWS)
    (tmp_path / "bin/aws").chmod(0o755)
    script = tmp_path / "script"
    script.write_text(typed + "\n", encoding="utf-8")
    environment.pop("KEYWRAP_KEK", None)
    done = subprocess.run(
        ["bash", "-u", script],
        cwd=tmp_path / "here",
        env=environment,
        stdout=subprocess.PIPE,
        stderr=subprocess.STDOUT,
        stdin=subprocess.DEVNULL,
        check=False,
        text=True,
    )
    assert done.returncode == 0
    assert [line.strip() for line in done.stdout.splitlines()] == answer.split("\n")


# A test double of Slurm's sbatch: it runs the line for each task.
SBATCH = r"""#!/bin/bash
[ "$2" = --wrap ] && [[ $1 =~ ^--array=1-([0-9]+)$ ]] || exit
for SLURM_ARRAY_TASK_ID in $(seq "${BASH_REMATCH[1]}"); do export SLURM_ARRAY_TASK_ID; sh -c "$3" || exit; done
"""
SEVERAL_MACHINES = next(
    section
    for section in SECTIONS
    if section.startswith("Rotate on several machines\n")
)
# Each scheduler with the variable that it sets for a task, and the number of its first task.
SLURM = re.search("(?m)^# Slurm\n(.*)$", SEVERAL_MACHINES)[1]
KUBERNETES = " ".join(
    re.search(r"command: \[sh, -c, '([^']*)'\]", SEVERAL_MACHINES)[1].split()
)


@pytest.mark.parametrize(
    "line",
    [
        SLURM,
        f"for JOB_COMPLETION_INDEX in {{0..9}}; do export JOB_COMPLETION_INDEX; ({KUBERNETES}) || exit; done",
    ],
    ids=["Slurm", "Kubernetes"],
)
def test_line_of_an_array_of_jobs(line, tmp_path, environment):
    (tmp_path / "bin/sbatch").write_text(SBATCH)
    (tmp_path / "bin/sbatch").chmod(0o755)
    prepare = KEKS + STORES_OF_RECIPES["Rotate on several machines"]
    line = line.replace("/store", "store").replace("/keks/", "")
    script = f"set -e\n{prepare}export KEYWRAP_KEK=kek.hex KEYWRAP_NEW_KEK=new-kek.hex\n{line}\n"
    script += "keywrap-rotate --verify store\n"
    done = subprocess.run(
        ["bash", "-c", script],
        cwd=tmp_path / "here",
        env=environment,
        stdin=subprocess.DEVNULL,
        capture_output=True,
        text=True,
        check=False,
    )
    assert done.returncode == 0, done.stderr
    assert "4000 keys: 4000 new, 0 refused" in done.stderr.splitlines()[-1]


def test_the_job_and_the_container_file():
    yaml = pytest.importorskip("yaml", reason="no yaml (apt-get install python3-yaml)")
    job = yaml.safe_load(SEVERAL_MACHINES.split("```yaml\n")[1].split("```")[0])
    spec = job["spec"]["template"]["spec"]
    (container,) = spec["containers"]
    assert job["kind"] == "Job"
    assert job["spec"]["completionMode"] == "Indexed"
    assert job["spec"]["completions"] == 10
    assert {mount["name"] for mount in container["volumeMounts"]} == {
        volume["name"] for volume in spec["volumes"]
    }
    mounted = tuple(mount["mountPath"] for mount in container["volumeMounts"])
    assert all(variable["value"].startswith(mounted) for variable in container["env"])
    assert "/10 /store" in container["command"][-1]


def test_each_section_with_lines_is_a_recipe():
    assert {recipe.id for recipe in recipes()} == {*STORES_OF_RECIPES}


def test_the_lines_that_lock_a_file_for_a_write_in_place(tmp_path):
    """They wait for the lock, and open again if the name belongs to another file by then."""
    path = tmp_path / "file"
    path.write_bytes(b"old")
    (tmp_path / "new").write_bytes(b"new")
    real = fcntl.flock
    calls = []

    def flock(file, how):
        real(file, how)
        calls.append(how)
        if len(calls) == 1:
            os.rename(tmp_path / "new", path)

    lines = textwrap.dedent(re.search("(?s)```python\n(.*?)```", PAGE)[1])
    names = {
        "path": path,
        "os": os,
        "fcntl": types.SimpleNamespace(flock=flock, LOCK_EX=fcntl.LOCK_EX),
    }
    exec(lines, names)
    with names["file"] as file:
        assert file.read() == b"new"
        assert len(calls) == 2
        assert len(lines.splitlines()) == 6


def test_the_query_for_older_transactions(server):
    """It lists an open transaction of another session, and nothing without one."""
    query = re.search("(?s)```sql\n(.*?)```", PAGE)[1]
    assert server.sql(query) == ""
    with importlib.import_module("psycopg").connect() as connection:
        connection.execute("SELECT 1")
        pid = connection.info.backend_pid
        assert f"|{pid}|idle in transaction\n" in server.sql(query)


OURS, OTHER = (
    base64.b64encode(key).decode() for key in (wrapped_under(KEK, bytes(16)), bytes(40))
)


@pytest.mark.parametrize(
    "data, message",
    [
        ({"ours": OURS, "other\x1b": OTHER}, "under no KEK of this rotation"),
        ({"ours": OURS, "other\x1b": f"!{OTHER}"}, ""),
        ({}, "it has no data"),
    ],
)
def test_a_refused_secret(tmp_path, data, message):
    """A wrong key, one with a stray character, and none: the file is as it was. No terminal obeys the name."""
    secret = {"data": data}
    file = tmp_path / "secret.json"
    file.write_text(json.dumps(secret))
    command = [sys.executable, "-m", "keywrap_rotate.kubernetes_secret", file]
    done = subprocess.run(command, capture_output=True, text=True)
    assert done.returncode == 1
    assert message in done.stderr
    assert json.loads(file.read_text()) == secret
    assert "\x1b" not in done.stderr
