#!/usr/bin/env python3
"""Writes erasures that the Rust crate spade made as cases for the definition of an erasure.

Usage: tools/compare_erasures.py --corpus CORPUS --crate crates/erasure [--seeds A B] [--largest N] [--each N]

CORPUS is a generator of sound maps with an erasure each and the map after it (see tools/compare_check.py).
Of each sort of erasure (how many entries; inside, on the hull, flat or on a line; how many spokes) at most
--each cases are kept. They become specs/Corpus.antt and proofs/Corpus.antt of the crate, which say that
the definition gives the same tables, number by number, and the same moved number.
"""

import argparse
import pathlib
import subprocess

COLUMNS = ("x", "y", "out", "adj", "next", "prev", "face", "origin")


def number(word):
    return 4294967295 if word == "-" else int(word)


def read_map(take):
    n, e, f = (int(next(take)) for _ in range(3))
    places = [(int(next(take)), int(next(take))) for _ in range(n)]
    out = [number(next(take)) for _ in range(n)]
    halves = [[number(next(take)) for _ in range(4)] for _ in range(2 * e)]
    adj = [number(next(take)) for _ in range(f)]
    links = [list(column) for column in zip(*halves)] or [[], [], [], []]
    return [[x for x, _ in places], [y for _, y in places], out, adj] + links


def cases(corpus, seed, count, largest):
    text = subprocess.run([corpus, str(seed), str(count), str(largest)], capture_output=True, text=True, check=True).stdout
    take = iter(text.split())
    for word in take:
        assert word == "case"
        next(take), next(take)
        v = int(next(take))
        before = read_map(take)
        assert next(take) == "answer"
        next(take), next(take), next(take)
        moved = next(take)
        yield v, before, moved, read_map(take)


def side(a, b, q):
    return (b[0] - a[0]) * (q[1] - a[1]) - (b[1] - a[1]) * (q[0] - a[0])


def sort_of(v, table):
    x, y, _, adj, _, prev, face, origin = table
    if len(adj) == 1:
        return "line", min(len(x), 3), sum(o == v for o in origin)
    spokes = [h for h, o in enumerate(origin) if o == v]
    outer = [h for h in spokes if face[h] == 0]
    if not outer:
        return "inside", len(spokes)
    place = lambda u: (x[u], y[u])
    straight = side(place(origin[outer[0] ^ 1]), place(v), place(origin[prev[outer[0]]])) == 0
    return "flat" if straight else "hull", len(spokes)


def as_list(numbers):
    return "(" + " ∷ ".join([str(i) for i in numbers] + ["[]"]) + ")" if numbers else "[]"


def as_tables(table):
    return "(tables " + " ".join(as_list(column) for column in table) + ")"


SPEC = """-- Erasures as the Rust makes them, from small random maps: places on lines and on circles, inside, on the hull, on a line.
use Rattle.std.specs.Prelude.{[], ◌∷◌, Some, None}
use Rattle.erasure.specs.Compared.{tables, Erases}

"""

PROOF = """-- The definition gives the tables of the Rust, by computation.
use Rattle.std.proofs.Common.{refl}
use Rattle.plane.specs.Plane.{S, C}
use Rattle.links.specs.Links.{rev}
use Rattle.surgery.specs.Update.{upd, flip}
use Rattle.surgery.specs.Removal.{renumber, carry_edge, fix_swap, move_edge, move_face, move_entry}
use Rattle.surgery.specs.Fan.{cut_ear}
use Rattle.erasure.specs.Detach.{detach}
use Rattle.erasure.specs.Fill.{last_triangle}
use Rattle.erasure.specs.Line.{unlinked, shorten, straighten}
use Rattle.erasure.specs.Corpus.{SameAsRust}

pub same_as_rust : SameAsRust
unfolding S C rev upd flip renumber carry_edge fix_swap move_edge move_face move_entry cut_ear detach last_triangle unlinked shorten straighten
same_as_rust = (
"""


def main():
    parser = argparse.ArgumentParser(description=__doc__.splitlines()[0])
    parser.add_argument("--corpus", required=True)
    parser.add_argument("--crate", required=True, type=pathlib.Path)
    parser.add_argument("--seeds", nargs=2, type=int, default=(1, 40))
    parser.add_argument("--largest", type=int, default=9)
    parser.add_argument("--each", type=int, default=2)
    options = parser.parse_args()

    kept, seen = [], {}
    for seed in range(*options.seeds):
        for case in cases(options.corpus, seed, 10, options.largest):
            sort = sort_of(case[0], case[1])
            if seen.get(sort, 0) < options.each:
                seen[sort] = seen.get(sort, 0) + 1
                kept.append((sort, case))
    kept.sort(key=lambda pair: pair[0])

    spec = SPEC
    for i, (sort, (v, before, moved, after)) in enumerate(kept):
        answer = "None" if moved == "-" else f"(Some {moved})"
        spec += f"-- {sort[0]}, {sort[-1]} spokes\nabbrev case{i} : Type 0\ncase{i} =\n    Erases {as_tables(before)} {v}\n    {answer} {as_tables(after)}\n\n"
    spec += "-- the definition gives these tables, number by number\nabbrev pub SameAsRust : Type 0\nSameAsRust = " + " × ".join(f"case{i}" for i in range(len(kept))) + "\n"
    (options.crate / "specs" / "Corpus.antt").write_text(spec)
    (options.crate / "proofs" / "Corpus.antt").write_text(PROOF + "  (refl, refl),\n" * len(kept) + ")\n")
    print(f"{len(kept)} cases: " + ", ".join(f"{' '.join(map(str, sort))}: {count}" for sort, count in sorted(seen.items())))


main()
