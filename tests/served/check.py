#!/usr/bin/env python3
"""Serves programs whose numbers come by a pipe, in random gaps, and compares what is shown with `stab run` with the same numbers in a
file.

    check.py [COUNT [SEED [NUMBERS]]]    without words 300 random programs of seed 1, and 100,000 numbers for the service

It takes those random programs of tests/random-types that probe and print, in which main alone does so where there are other threads,
and of which runs by one worker and by four, with several quantums, show the same text with no number of a channel or reference. `serve`
has to show that text, too, by one worker and by four.

Then examples/service.stab gets numbers, of which one in ten is a mistake, which is taken back: one by one, where each answer is read
before the next number is sent, so an answer that is kept back stops the test; all at once over a socket; and by a feeder that is killed
behind the last of them, which is the end of the input.

STAB=PROGRAM tests another build of the program.
"""
import os
import random
import signal
import socket
import subprocess
import sys
import tempfile
import threading
import time

TOP = os.path.dirname(os.path.dirname(os.path.dirname(os.path.abspath(__file__))))
sys.path.insert(0, os.path.join(TOP, "tests", "random-types"))
from programs import programs  # noqa: E402

STAB = os.environ.get("STAB") or os.path.join(TOP, "crates", "stab_cli", "out", "stab_cli")
SERVICE = os.path.join(TOP, "examples", "service.stab")
LIMIT = 60
FUEL = "5000"
RUNS = [("1", "1"), ("1", "7"), ("1", "1000"), ("4", "1000")]


class Wrong(Exception):
    pass


def run(path, numbers, workers, quantum):
    words = [STAB, "run", path, "--fuel", FUEL, "--probes", numbers, "--workers", workers, "--quantum", quantum]
    done = subprocess.run(words, stdin=subprocess.DEVNULL, capture_output=True, text=True, timeout=LIMIT)
    return done.returncode, done.stdout, done.stderr


def feed(pipe, lines, chance):
    """Writes lines, some with a gap before them, and a few in two parts. Whoever doesn't read any more ends it."""
    try:
        for line in lines:
            if chance.random() < 0.2:
                time.sleep(chance.random() / 200)
            cut = chance.randrange(len(line)) if chance.random() < 0.1 else 0
            for part in (line[:cut], line[cut:]):
                pipe.write(part)
                pipe.flush()
        pipe.close()
    except BrokenPipeError:
        pass


def serve(path, lines, workers, chance):
    words = [STAB, "serve", path, "--fuel", FUEL, "--workers", workers]
    with subprocess.Popen(words, stdin=subprocess.PIPE, stdout=subprocess.PIPE, stderr=subprocess.PIPE, text=True) as served:
        feeder = threading.Thread(target=feed, args=(served.stdin, lines, chance), daemon=True)
        feeder.start()
        out, err = served.stdout.read(), served.stderr.read()
        status = served.wait(timeout=LIMIT)
        feeder.join()
    return status, out, err


def is_taken(told, text):
    """Whether a program is typed, and its main probes and prints, and nobody else where it has other threads."""
    main, *others = sorted(text.split("fn ")[1:], key=lambda it: not it.startswith("main("))
    acts = ("probe()", "print(")
    whole = all(it in text for it in acts)
    alone = all(it in main for it in acts) and not any(it in other for it in acts for other in others)
    return told == "typed" and whole and (alone or "spawn" not in text)


def is_of_one_text(seen):
    return len(seen) == 1 and not any(it in next(iter(seen))[1] for it in ("chan ", "ref "))


def random_programs(count, seed):
    chance, same, threads = random.Random(seed), 0, 0
    with tempfile.TemporaryDirectory() as folder:
        path, numbers = os.path.join(folder, "program.stab"), os.path.join(folder, "numbers")
        for told, text in programs(1000 * count, seed):
            if same == count:
                break
            if not is_taken(told, text):
                continue
            lines = ["%d\n" % chance.choice([0, 1, -1, 2, 5, chance.randrange(-(2**63), 2**63)]) for _ in range(chance.randrange(12))]
            for name, content in ((path, text), (numbers, "".join(lines))):
                with open(name, "w") as file:
                    file.write(content)
            seen = {run(path, numbers, *how) for how in RUNS}
            if not is_of_one_text(seen):
                continue
            for workers in ("1", "4"):
                got = serve(path, lines, workers, chance)
                if got not in seen:
                    raise Wrong("by %s workers serve shows %r, run shows %r\n%s\n%s" % (workers, got, seen, text, lines))
            same, threads = same + 1, threads + ("spawn" in text)
    return "%d random programs, of which %d have several threads, show what run shows" % (same, threads)


def answers(numbers):
    """The answers of the service."""
    total = 0
    for n in numbers:
        if n > 0:
            total += n
            yield total


def numbers_of(count, chance):
    return [-chance.randrange(1, 1000) if chance.random() < 0.1 else chance.randrange(1, 1000) for _ in range(count)]


def one_by_one(workers, numbers):
    words = [STAB, "serve", SERVICE, "--fuel", "16000000", "--workers", workers]
    with subprocess.Popen(words, stdin=subprocess.PIPE, stdout=subprocess.PIPE, text=True, bufsize=1) as served:
        ending = threading.Timer(10 * LIMIT, served.kill)
        ending.start()
        wanted = answers(numbers)
        for n in numbers:
            served.stdin.write("%d\n" % n)
            if n > 0:
                got, want = served.stdout.readline(), "%d\n" % next(wanted)
                if got != want:
                    raise Wrong("by %s workers the answer is %r, not %r" % (workers, got, want))
        served.stdin.close()
        rest = served.stdout.read()
        ending.cancel()
    if (rest, served.wait()) != ("ended 2 faulted 0 waiting 0\n", 0):
        raise Wrong("by %s workers the service ends with %r, %d" % (workers, rest, served.returncode))


def whole_text(numbers):
    return "".join("%d\n" % it for it in answers(numbers)) + "ended 2 faulted 0 waiting 0\n"


def over_a_socket(workers, numbers):
    """The two sides of a connection are the input and the output of the service."""
    here, there = socket.socketpair()
    with here:
        words = [STAB, "serve", SERVICE, "--fuel", "16000000", "--workers", workers]
        served = subprocess.Popen(words, stdin=there, stdout=there)
        there.close()

        def send():
            here.sendall("".join("%d\n" % n for n in numbers).encode())
            here.shutdown(socket.SHUT_WR)

        sender = threading.Thread(target=send, daemon=True)
        sender.start()
        out = b"".join(iter(lambda: here.recv(65536), b"")).decode()
        status = served.wait(timeout=10 * LIMIT)
        sender.join()
    if (out, status) != (whole_text(numbers), 0):
        raise Wrong("by %s workers the service ends on a socket with %r" % (workers, out[-200:]))


def killed_feeder(workers, numbers):
    """Whoever feeds the service is killed behind the last number: what came is answered, and the service ends."""
    feeder = subprocess.Popen(["sh", "-c", "cat; kill -9 $$"], stdin=subprocess.PIPE, stdout=subprocess.PIPE)
    words = [STAB, "serve", SERVICE, "--fuel", "16000000", "--workers", workers]
    served = subprocess.Popen(words, stdin=feeder.stdout, stdout=subprocess.PIPE, text=True)
    feeder.stdout.close()
    feeder.communicate("".join("%d\n" % n for n in numbers).encode())
    out = served.communicate(timeout=10 * LIMIT)[0]
    if feeder.returncode != -signal.SIGKILL or (out, served.returncode) != (whole_text(numbers), 0):
        raise Wrong("by %s workers the service whose feeder was killed ends with %r" % (workers, out[-200:]))


def main():
    given = [int(word) for word in sys.argv[1:]]
    count, seed, length = given + [300, 1, 100000][len(given):]
    numbers = numbers_of(length, random.Random(seed))
    try:
        print(random_programs(count, seed))
        for workers in ("1", "4"):
            for way in (one_by_one, over_a_socket, killed_feeder):
                way(workers, numbers)
            print("with %s workers the service answers %d numbers one by one, over a socket, and of a feeder that is killed" % (workers, length))
    except Wrong as why:
        raise SystemExit("wrong: %s" % why) from None


if __name__ == "__main__":
    main()
