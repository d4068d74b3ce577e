#!/usr/bin/env python3
"""Compares the walks of the program pad with the tables of random sound maps.

Usage: tools/compare_walks.py --corpus CORPUS --pad PAD [--seed N] [--maps N] [--largest N]

CORPUS is a generator of sound maps (see tools/compare_check.py). Each map becomes a script: entries,
draft, settle, and then every walk, from the front, from the back and from both ends. What pad must
print is worked out by tools/expected.py, straight from the tables.
"""

import argparse
import pathlib
import subprocess
import sys


def maps(corpus, seed, count, largest):
    """The maps before and after each erasure of the generator, as lists of words."""
    text = subprocess.run([corpus, str(seed), str(count), str(largest)], capture_output=True, text=True, check=True).stdout
    block = []
    for line in text.splitlines():
        if line.startswith(("case", "answer")):
            if block:
                yield " ".join(block).split()
            block = []
        else:
            block.append(line)
    yield " ".join(block).split()


def script(words):
    """A script that settles the map and walks it."""
    take = iter(words)
    n, e, f = (int(next(take)) for _ in range(3))
    lines = ["kind point"]
    lines += [f"entry {next(take)} {next(take)}" for _ in range(n)]
    lines += [f"draft {n} {e} {f}"]
    lines += [f"out {v} {next(take)}" for v in range(n)]
    lines += [f"half {h} " + " ".join(next(take) for _ in range(4)) for h in range(2 * e)]
    lines += [f"face {k} {next(take)}" for k in range(f)]
    lines += ["settle"]
    for way in ("", " back", " both"):
        lines += [f"walk {v}{way}" for v in range(n + 1)] + [f"hull{way}"]
    return "\n".join(lines) + "\n"


def main():
    parser = argparse.ArgumentParser(description=__doc__.splitlines()[0])
    parser.add_argument("--corpus", required=True)
    parser.add_argument("--pad", required=True)
    parser.add_argument("--seed", type=int, default=1)
    parser.add_argument("--maps", type=int, default=200)
    parser.add_argument("--largest", type=int, default=40)
    given = parser.parse_args()
    model = pathlib.Path(__file__).with_name("expected.py")
    played = walks = 0
    for words in maps(given.corpus, given.seed, given.maps, given.largest):
        text = script(words)
        due = subprocess.run([sys.executable, model], input=text, capture_output=True, text=True, check=True).stdout
        told = subprocess.run([given.pad], input=text, capture_output=True, text=True, check=True).stdout
        if due != told or "settle: accepted" not in told:
            print("disagreement:\n" + text)
            return 1
        played += 1
        walks += sum(line.startswith(("walk", "hull")) for line in told.splitlines())
    print(f"{played} maps, {walks} walks, no disagreement")
    return 0


if __name__ == "__main__":
    sys.exit(main())
