#!/usr/bin/env python3
"""Measures the program against another one, given by its path: examples/measure.py OTHER [RUNS] [SCHEDULE..]

Both replay the same schedules, in turn, so that a busy machine is unkind to both alike. For each schedule stands the least
processor time of each in milliseconds and its page faults, and the ratio of the times. With no schedules given it makes its
own: chains of 1, 3 and 7 with 16,384 events, once with many pages that are sent again, once with many clients and objects.
The texts of both programs are compared first. It wants the program as rt ci builds it.
"""
import os
import random
import subprocess
import sys
import tempfile

HERE = os.path.dirname(os.path.abspath(__file__))
OWN = os.path.join(HERE, "..", "crates", "hm", "out", "hm")
EVENTS = 16384


def pages(rng, size):
    """Writes of 64 bytes, few acknowledgements, and ticks that send pages again."""
    client = 0
    for _ in range(EVENTS):
        kind = rng.random()
        if kind < 0.25:
            client = client % 4000 + 1
            yield f"write {client} {rng.randrange(200)} {rng.randbytes(64).hex()} 1"
        elif kind < 0.55:
            yield "next"
        elif kind < 0.65:
            yield "drop"
        else:
            yield f"tick {rng.randrange(size)}"


def wide(rng, size):
    """Writes and reads of many clients and objects, delivered in order."""
    client = 0
    for _ in range(EVENTS):
        kind = rng.random()
        if kind < 0.25:
            client += 1
            yield f"write {client} {rng.randrange(5000)} {rng.randbytes(64).hex()} 1"
        elif kind < 0.4:
            yield f"read {100_000 + rng.randrange(5000)} {rng.randrange(5000)} 1"
        else:
            yield "next"


def made(folder):
    """Writes the schedules that are measured by default, and gives their paths."""
    paths = []
    for name, events in (("pages", pages), ("wide", wide)):
        for size in (1, 3, 7):
            path = os.path.join(folder, f"{name}-{size}")
            with open(path, "w", encoding="ascii") as file:
                file.write(f"group chain {size}\n")
                file.writelines(f"{event}\n" for event in events(random.Random(size), size))
            paths.append(path)
    return paths


def text(program, path):
    """What the program writes for the schedule."""
    with open(path, "rb") as file:
        return subprocess.run([program, "replay"], stdin=file, stdout=subprocess.PIPE, check=False).stdout


def used(program, path):
    """Processor time and page faults of one run."""
    given, null = os.open(path, os.O_RDONLY), os.open(os.devnull, os.O_WRONLY)
    actions = [(os.POSIX_SPAWN_DUP2, given, 0), (os.POSIX_SPAWN_DUP2, null, 1)]
    process = os.posix_spawn(program, [program, "replay"], os.environ, file_actions=actions)
    _, _, usage = os.wait4(process, 0)
    os.close(given)
    os.close(null)
    return usage.ru_utime + usage.ru_stime, usage.ru_minflt


def main():
    if len(sys.argv) < 2:
        sys.exit(__doc__)
    other, runs = sys.argv[1], int(sys.argv[2]) if len(sys.argv) > 2 else 30
    with tempfile.TemporaryDirectory() as folder:
        for path in sys.argv[3:] or made(folder):
            if text(OWN, path) != text(other, path):
                print(f"{os.path.basename(path)}: the texts differ")
                continue
            least = {OWN: (1e9, 0), other: (1e9, 0)}
            for _ in range(runs):
                for program in least:
                    least[program] = min(least[program], used(program, path))
            (own, faults), (base, base_faults) = least[OWN], least[other]
            print(
                f"{os.path.basename(path):10} {own * 1e3:8.2f} ms {faults:6} faults,"
                f" other {base * 1e3:8.2f} ms {base_faults:6} faults, ratio {own / base:.2f}"
            )


if __name__ == "__main__":
    main()
