#!/usr/bin/env python3
"""How long `check` takes on a map of 4096 entries, beside the same brute force in Rust.

Usage: tools/bench/bench.py PAD [RUSTC]

The map is a grid of 64 by 64 entries, each square cut by a diagonal. pad plays it with one check and
with six; a fifth of the difference is the time of one check. The Rust is brute_check.rs, built -O.
"""

import pathlib
import subprocess
import sys
import tempfile
import time

SIDE, GAP = 64, 250


def grid():
    """The map: places, out_edges, halves and adjacent_edges."""
    number = lambda x, y: y * SIDE + x
    places = [(x * GAP, y * GAP) for y in range(SIDE) for x in range(SIDE)]
    faces = []
    for y in range(SIDE - 1):
        for x in range(SIDE - 1):
            a, b, c, d = number(x, y), number(x + 1, y), number(x + 1, y + 1), number(x, y + 1)
            faces += [(a, b, c), (a, c, d)]
    halves, by_ends = [], {}

    def half(a, b):
        if (a, b) not in by_ends:
            k = len(halves)
            by_ends[a, b], by_ends[b, a] = k, k + 1
            halves.append([None, None, 0, a])
            halves.append([None, None, 0, b])
        return by_ends[a, b]

    adjacent = [None]
    for face in faces:
        hs = [half(face[i], face[(i + 1) % 3]) for i in range(3)]
        adjacent.append(hs[0])
        for i, h in enumerate(hs):
            halves[h][:3] = [hs[(i + 1) % 3], hs[(i - 1) % 3], len(adjacent) - 1]
    outer = {halves[h][3]: h for h in range(len(halves)) if halves[h][0] is None}
    for h in outer.values():
        following = outer[halves[h ^ 1][3]]
        halves[h][0], halves[following][1] = following, h
    adjacent[0] = next(iter(outer.values()))
    out = [None] * len(places)
    for h, links in enumerate(halves):
        out[links[3]] = h
    return places, out, halves, adjacent


def as_text(places, out, halves, adjacent):
    lines = [f"{len(places)} {len(halves) // 2} {len(adjacent)}"]
    lines += [f"{x} {y}" for x, y in places]
    lines += [" ".join(map(str, out))]
    lines += [" ".join(map(str, links)) for links in halves]
    lines += [" ".join(map(str, adjacent))]
    return "\n".join(lines) + "\n"


def as_script(places, out, halves, adjacent, checks):
    lines = [f"entry {x} {y}" for x, y in places]
    lines += [f"draft {len(places)} {len(halves) // 2} {len(adjacent)}"]
    lines += [f"out {v} {h}" for v, h in enumerate(out)]
    lines += ["half " + " ".join(map(str, [h] + links)) for h, links in enumerate(halves)]
    lines += [f"face {k} {h}" for k, h in enumerate(adjacent)]
    return "\n".join(lines + ["check"] * checks) + "\n"


def seconds(pad, script, checks):
    start = time.perf_counter()
    answers = subprocess.run([pad], input=script, capture_output=True, text=True, check=True).stdout
    taken = time.perf_counter() - start
    assert answers.count("check: accepted") == checks, answers[-200:]
    return taken


def main():
    pad = sys.argv[1]
    rustc = sys.argv[2] if len(sys.argv) > 2 else "rustc"
    tables = grid()
    once = min(seconds(pad, as_script(*tables, 1), 1) for _ in range(3))
    often = min(seconds(pad, as_script(*tables, 6), 6) for _ in range(3))
    each = (often - once) / 5
    print(f"pad:  one check: {each * 1e3:.1f} ms, {each * 1e9 / len(tables[0]):.0f} ns an entry")
    with tempfile.TemporaryDirectory() as folder:
        program = pathlib.Path(folder, "brute_check")
        source = pathlib.Path(__file__).with_name("brute_check.rs")
        subprocess.run([rustc, "-O", "-o", program, source], check=True)
        answer = subprocess.run([program, "5"], input=as_text(*tables), capture_output=True, text=True, check=True)
        print("Rust:", answer.stdout.strip())


if __name__ == "__main__":
    main()
