#!/usr/bin/env python3
"""Asks the built program `stab` for the types of random programs, and compares its answer with that of programs.py. It runs each
program with three probe files: where it is typed, no thread may end with WrongKind.

    check.py [COUNT [SEED]]    without words 5000 programs of seed 1
"""
import os
import subprocess
import sys
import tempfile

from programs import programs

TOP = os.path.dirname(os.path.dirname(os.path.dirname(os.path.abspath(__file__))))
STAB = os.path.join(TOP, "crates", "stab_cli", "out", "stab_cli")
PROBES = ["", "-1\n1\n" * 50, "".join("%d\n" % (n * n % 11 - 5) for n in range(200))]
FUEL = "20000"


def call(*words):
    done = subprocess.run([STAB, *words], stdin=subprocess.DEVNULL, capture_output=True, text=True)
    return done.returncode, done.stdout, done.stderr


# What `stab types` should write and how it should end.
def expected(told, functions):
    if told == "typed":
        return 0, "typed functions %d\n" % functions, ""
    return 15, "", "stab: Untyped %s\n" % told.split()[1]


def wrong_kinds(text, name, folder):
    with open(os.path.join(folder, name), "w") as file:
        file.write(text)
    path = os.path.join(folder, name)
    count = 0
    for i in range(len(PROBES)):
        code, out, err = call("run", path, "--fuel", FUEL, "--probes", os.path.join(folder, "probes%d" % i))
        if code not in (0, 1, 8):
            raise SystemExit("run ended with %d: %s\n%s" % (code, err, text))
        count += sum(line.startswith("thread ") and line.endswith(" fault WrongKind") for line in out.splitlines())
    return count


def main():
    count = int(sys.argv[1]) if len(sys.argv) > 1 else 5000
    seed = int(sys.argv[2]) if len(sys.argv) > 2 else 1
    typed = refused = met = 0
    with tempfile.TemporaryDirectory() as folder:
        for i, probes in enumerate(PROBES):
            with open(os.path.join(folder, "probes%d" % i), "w") as file:
                file.write(probes)
        for told, text in programs(count, seed):
            wrong = wrong_kinds(text, "program.stab", folder)
            answer = call("types", os.path.join(folder, "program.stab"))
            if answer != expected(told, text.count("fn ")):
                raise SystemExit("%s is wanted, but the answer is %r\n%s" % (told, answer, text))
            if told == "typed":
                typed += 1
                if wrong:
                    raise SystemExit("a typed program ends with WrongKind\n" + text)
            else:
                refused += 1
                met += wrong > 0
    print("typed %d, none of which met a wrong kind; refused %d, of which %d met one" % (typed, refused, met))


main()
