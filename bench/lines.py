#!/usr/bin/env python3
"""Measures keys per second of processor time from a file into a file: by the command with --lines, by a script over
pyca, and by a process for each key. Writes CSV, of each the best of rounds in which all take turns. Takes a minute.

usage: bench/lines.py PROGRAM"""

import itertools
import os
import pathlib
import resource
import subprocess
import sys
import tempfile
import timeit

from cryptography.hazmat.primitives.keywrap import aes_key_unwrap, aes_key_wrap

# The bytes of a key.
LENGTH = 32
ROUNDS = 12
# How many keys each way takes in a round.
LINES = 100_000
SCRIPT_LINES = 5_000
PROCESSES = 50
OLD = os.urandom(32)
NEW = os.urandom(32)
COMMANDS = {
    "wrap": "wrap --kek kek.hex",
    "unwrap": "unwrap --kek kek.hex",
    "check": "check --kek kek.hex",
    "rewrap": "rewrap --kek kek.hex --new-kek new-kek.hex",
}


def rewrap(text):
    key = aes_key_unwrap(OLD, text)
    return aes_key_wrap(NEW, key)


# The jobs of the script. It has no check.
SCRIPT = {
    "wrap": lambda key: aes_key_wrap(OLD, key),
    "unwrap": lambda text: aes_key_unwrap(OLD, text),
    "rewrap": rewrap,
}


def processor_time():
    """Seconds of this process and of the ended ones that it started."""
    seconds = 0
    for who in (resource.RUSAGE_SELF, resource.RUSAGE_CHILDREN):
        usage = resource.getrusage(who)
        seconds += usage.ru_utime
        seconds += usage.ru_stime
    return seconds


def by_program(program, job, source, *options):
    command = COMMANDS[job].split()
    files = ["--input", source, "--output", "answer"]
    words = [program, *command, *options, *files]
    subprocess.run(words, check=True, stdout=subprocess.DEVNULL)


def by_script(job, source):
    convert = SCRIPT[job]
    with open(source) as lines, open("theirs", "w") as answers:
        for line in itertools.islice(lines, SCRIPT_LINES):
            answer = convert(bytes.fromhex(line))
            answers.write(answer.hex() + "\n")


def by_processes(program, job):
    for number in range(PROCESSES):
        by_program(program, job, f"one.{number}")


def ways(program, job, source):
    """The name of each way, how many keys it takes, and its call."""
    yield "keywrap --lines", LINES, lambda: by_program(program, job, source, "--lines")
    if job in SCRIPT:
        yield "a script over pyca", SCRIPT_LINES, lambda: by_script(job, source)
    with open(source) as lines:
        for number, line in enumerate(itertools.islice(lines, PROCESSES)):
            pathlib.Path(f"one.{number}").write_text(line)
    yield "a process for each key", PROCESSES, lambda: by_processes(program, job)


def write_files(program):
    """Writes both KEKs, random keys, and the same keys wrapped."""
    pathlib.Path("kek.hex").write_text(OLD.hex())
    pathlib.Path("new-kek.hex").write_text(NEW.hex())
    with open("keys", "w") as keys:
        for _ in range(LINES):
            key = os.urandom(LENGTH)
            keys.write(key.hex() + "\n")
    by_program(program, "wrap", "keys", "--lines")
    os.rename("answer", "wrapped")


def measure_round(program, best):
    """All ways take turns. Keeps the least seconds a key of each way and job."""
    for job in COMMANDS:
        source = "wrapped"
        if job == "wrap":
            source = "keys"
        for way, count, call in ways(program, job, source):
            seconds = timeit.timeit(call, timer=processor_time, number=1)
            took = seconds / count
            best[way, job] = min(took, best.get((way, job), took))


def main(program):
    program = os.path.abspath(program)
    with tempfile.TemporaryDirectory() as workdir:
        os.chdir(workdir)
        write_files(program)
        best = {}
        for _ in range(ROUNDS):
            measure_round(program, best)
        print("way,job,key,keys_per_second")
        for (way, job), took in best.items():
            print(f"{way},{job},{LENGTH},{round(1 / took)}")


if __name__ == "__main__":
    main(sys.argv[1])
