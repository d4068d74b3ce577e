#!/usr/bin/env python3
"""Compares the command `check` of the program pad with a reference checker.

What it needs, besides Python 3.9 or newer:

- pad: plays scripts, as docs/FORMATS.md describes them
- the reference checker, run as `oracle check < MAP`: it writes `sound`, or
  `fault R clause C: RECORDS`, and ends with status 0 for a sound map and 1 for another
- the generator, run as `corpus SEED COUNT NMAX`: it writes COUNT random sound maps of at most
  NMAX entries, each with the map that is left after one entry was erased

A map as text is the listing of docs/MODEL.md: `n e f`, the places, the out_edges, the halves
(`next prev face origin`) and the adjacent_edges, with `-` for none.

What it does: it takes every map of the generator as it is, and damaged copies of it. It asks the
reference checker about each of them, and pad in batches, many maps in one script. From the
reference checker's words it makes the answer that pad must give: rule, clause and records. The
reference checker knows nothing of the shelf's count and of the lengths of tables (rule 1, clauses
2 to 4), nor of the axis and cause of a fault 2; these the tool reads off docs/RULES.md itself.

It writes how many tables agreed, by rule and clause and by damage, and each disagreement with the
script that shows it. Exit status: 0 if all agree, 1 if any does not, 2 if a program fails.

Example:

    tools/compare_check.py --oracle bin/oracle --corpus bin/corpus --pad crates/pad/out/pad \\
        --seed 1 --maps 300 --largest 40 --damages 12
"""

import argparse
import collections
import copy
import math
import random
import re
import subprocess
import sys

NEXT, PREV, FACE, ORIGIN = range(4)
GRID = 16383

# How many records a fault names, where that is not one.
RECORDS = {(1, 1): 0, (4, 7): 0, (6, 2): 2, (6, 3): 2, (7, 1): 2, (8, 1): 2}

# Numbers off the grid, and other spellings of numbers on it, as a script may write them.
ODD_NUMBERS = ["-1", "16384", "65536", "4294967296", "1e300", "-1e300", "0.5", "16382.5", "16383.5",
               "-0.5", "1e-320", "-1e-320", "nan", "inf", "-inf", "-0.0", "16383e0", "4000e-3"]


class Failure(Exception):
    """A program could not be run, or its answer cannot be read."""


# ---- tables ----


class Tables:
    """Link tables with the places of a shelf.

    places: pairs of words, as a script writes them. out, adj: links, or None. halves: lists of
    next, prev, face and origin. lengths: the lengths of the three tables and of the slice, or None
    for those that pad takes by itself. spare: places of further entries on the shelf, past n.
    count: the count beside the shelf, or None for the shelf's length.
    """

    def __init__(self, places, out, halves, adj):
        self.places = places
        self.out = out
        self.halves = halves
        self.adj = adj
        self.lengths = None
        self.spare = []
        self.count = None

    def sizes(self):
        """n, e and f."""
        return len(self.places), len(self.halves) // 2, len(self.adj)


def link_of(word):
    return None if word == "-" else int(word)


def word_of(link):
    return "-" if link is None else str(link)


def read_map(words):
    """Reads a map from an iterator of words."""
    n, e, f = (int(next(words)) for _ in range(3))
    places = [(next(words), next(words)) for _ in range(n)]
    out = [link_of(next(words)) for _ in range(n)]
    halves = [[link_of(next(words)) for _ in range(4)] for _ in range(2 * e)]
    adj = [link_of(next(words)) for _ in range(f)]
    return Tables(places, out, halves, adj)


def bare_tables(n, e, f):
    """Tables of these counts, with no link at all."""
    places = [(str(v % 128), str(v // 128)) for v in range(n)]
    return Tables(places, [None] * n, [[None] * 4 for _ in range(2 * e)], [None] * f)


def cause_of(word):
    """Why a script's number is no number of the grid, or None."""
    value = float(word)
    if math.isnan(value):
        return "not a number"
    if value < 0:
        return "below 0"
    if value > GRID:
        return "above 16383"
    return None if value == math.floor(value) else "a fraction"


def map_text(tables):
    """The map as text. A number off the grid becomes one that text can hold, also off the grid."""
    def whole(word):
        return str(GRID + 1 if cause_of(word) else int(float(word)))

    lines = ["%d %d %d" % tables.sizes()]
    lines += [whole(x) + " " + whole(y) for x, y in tables.places]
    lines.append(" ".join(map(word_of, tables.out)))
    lines += [" ".join(map(word_of, half)) for half in tables.halves]
    lines.append(" ".join(map(word_of, tables.adj)))
    return "\n".join(lines) + "\n"


def script_of(tables):
    """The script that has pad check the tables."""
    lines = ["kind point"]
    lines += ["entry %s %s" % place for place in tables.places + tables.spare]
    numbers = tables.sizes() + tuple(tables.lengths or ())
    lines.append("draft " + " ".join(map(str, numbers)))
    if tables.count is not None:
        lines.append("count %d" % tables.count)
    lines += ["out %d %s" % (v, word_of(link)) for v, link in enumerate(tables.out)]
    lines += ["half %d %s" % (h, " ".join(map(word_of, half))) for h, half in enumerate(tables.halves)]
    lines += ["face %d %s" % (k, word_of(link)) for k, link in enumerate(tables.adj)]
    lines.append("check")
    return "\n".join(lines) + "\n"


# ---- damages of single numbers ----
#
# A damage changes the tables and tells whether it could. Those of this group ask nothing of the
# tables, so that one can follow another.


def any_link(rng, limit):
    """A link that need not be good: mostly below the limit."""
    choice = rng.randrange(10)
    if choice < 6 and limit > 0:
        return rng.randrange(limit)
    if choice == 6:
        return limit
    if choice == 7:
        return limit + rng.randrange(1, 9)
    if choice == 8:
        return rng.choice([65536, 2147483648, 4294967294])
    return None


def any_place(rng, tables):
    """A place on the grid: anywhere, or near an entry."""
    on_grid = [place for place in tables.places if not any(map(cause_of, place))]
    if not on_grid or rng.randrange(3) == 0:
        return str(rng.randint(0, GRID)), str(rng.randint(0, GRID))
    reach = rng.choice([1, 2, 10, 100])
    numbers = [int(float(word)) + rng.randint(-reach, reach) for word in rng.choice(on_grid)]
    return tuple(str(min(max(number, 0), GRID)) for number in numbers)


def change_half(rng, tables):
    """One link of one half."""
    n, e, f = tables.sizes()
    if e == 0:
        return False
    column = rng.randrange(4)
    limit = {NEXT: 2 * e, PREV: 2 * e, FACE: f, ORIGIN: n}[column]
    rng.choice(tables.halves)[column] = any_link(rng, limit)
    return True


def change_start(rng, tables, links, column):
    """One out_edge or adjacent_edge; now and then to another half of the same record."""
    if not links:
        return False
    record = rng.randrange(len(links))
    own = [h for h, half in enumerate(tables.halves) if half[column] == record]
    if own and rng.randrange(4) == 0:
        links[record] = rng.choice(own)
    else:
        links[record] = any_link(rng, len(tables.halves))
    return True


def change_out(rng, tables):
    """One out_edge."""
    return change_start(rng, tables, tables.out, ORIGIN)


def change_adjacent(rng, tables):
    """One adjacent_edge."""
    return change_start(rng, tables, tables.adj, FACE)


def move_place(rng, tables):
    """One place to another one, often near."""
    if not tables.places:
        return False
    v = rng.randrange(len(tables.places))
    place = any_place(rng, tables)
    if rng.randrange(2) == 0 and not any(map(cause_of, tables.places[v])):
        x, y = (int(float(word)) for word in tables.places[v])
        place = (str(min(max(x + rng.randint(-2, 2), 0), GRID)), str(min(max(y + rng.randint(-2, 2), 0), GRID)))
    tables.places[v] = place
    return True


def share_place(rng, tables):
    """One entry at another entry's place."""
    n = len(tables.places)
    if n < 2:
        return False
    v, w = rng.sample(range(n), 2)
    tables.places[v] = tables.places[w]
    return True


def place_on_edge(rng, tables):
    """One entry at an end of an edge, or at the middle of it or next to that."""
    n = len(tables.places)
    origins = [half[ORIGIN] for half in tables.halves]
    if not origins or any(origin not in range(n) for origin in origins):
        return False
    h = rng.randrange(len(origins))
    ends = [tables.places[origins[g]] for g in (h, h ^ 1)]
    if any(cause_of(word) for place in ends for word in place):
        return False
    middle = tuple(str(int(float(a) + float(b)) // 2) for a, b in zip(*ends))
    tables.places[rng.randrange(n)] = rng.choice([ends[0], middle, middle])
    return True


def leave_grid(rng, tables):
    """One or two entries with an odd number in their place, mostly off the grid."""
    if not tables.places:
        return False
    for _ in range(rng.randint(1, 2)):
        v = rng.randrange(len(tables.places))
        x, y = tables.places[v]
        odd = rng.choice(ODD_NUMBERS)
        tables.places[v] = rng.choice([(odd, y), (x, odd), (odd, rng.choice(ODD_NUMBERS))])
    return True


def swap_places(rng, tables):
    """Two entries' places swapped."""
    n = len(tables.places)
    if n < 2:
        return False
    v, w = rng.sample(range(n), 2)
    tables.places[v], tables.places[w] = tables.places[w], tables.places[v]
    return True


def swap_halves(rng, tables):
    """The records of an edge's two halves swapped, but not the links to them."""
    if not tables.halves:
        return False
    h = 2 * rng.randrange(len(tables.halves) // 2)
    tables.halves[h], tables.halves[h + 1] = tables.halves[h + 1], tables.halves[h]
    return True


def change_count(rng, tables):
    """n, e or f by one, up or down."""
    n, e, f = tables.sizes()
    what, more = rng.choice("nef"), rng.randrange(2) == 0
    if not more and {"n": n, "e": e, "f": f}[what] == 0:
        return False
    if what == "n" and more:
        tables.places.append(any_place(rng, tables))
        tables.out.append(any_link(rng, 2 * e))
    elif what == "n":
        del tables.places[-1], tables.out[-1]
    elif what == "e" and more:
        limits = (2 * e + 2, 2 * e + 2, f, n)
        tables.halves += [[any_link(rng, limit) for limit in limits] for _ in range(2)]
    elif what == "e":
        del tables.halves[-2:]
    elif more:
        tables.adj.append(any_link(rng, 2 * e))
    else:
        del tables.adj[-1]
    return True


def change_lengths(rng, tables):
    """The lengths of the tables or of the slice, by a little; some are still long enough."""
    n, e, f = tables.sizes()
    lengths = [n, e + n, f + n]
    for _ in range(rng.randint(0, 2)):
        i = rng.randrange(3)
        lengths[i] = max(0, lengths[i] + rng.randint(-2, 2))
    size = 3 * lengths[0] + 8 * lengths[1] + lengths[2]
    tables.lengths = lengths + [max(0, size + rng.choice([0, 0, 1, -1, -9]))]
    return True


def change_shelf_count(rng, tables):
    """The count beside the shelf, and entries past n on it, also without a place."""
    n = len(tables.places)
    tables.spare = [("nan", "0"), ("1", "1")][:rng.randrange(3)]
    tables.count = rng.choice([None, max(0, n - 1), n, n, n + 1, n + 2, n + 1000])
    return True


# ---- damages that keep much of the fit ----
#
# Those of this group are for a sound map. They keep many clauses, so that later ones are reached.


def inner_edges(tables):
    """The edges between two inner faces."""
    halves = tables.halves
    return [k for k in range(len(halves) // 2) if halves[2 * k][FACE] and halves[2 * k + 1][FACE]]


def link_up(tables, h, g):
    """Makes g follow h."""
    tables.halves[h][NEXT] = g
    tables.halves[g][PREV] = h


def rename(tables, columns, starts, new_name):
    """Renames a kind of record in some columns of the halves and in lists of links."""
    for half in tables.halves:
        for column in columns:
            half[column] = new_name(half[column])
    for links in starts:
        links[:] = [None if link is None else new_name(link) for link in links]


def rename_halves(rng, tables):
    """An edge's two halves swapped, with all links to them: the map stays sound."""
    if not tables.halves:
        return False
    edge = rng.randrange(len(tables.halves) // 2)
    rename(tables, (NEXT, PREV), (tables.out, tables.adj), lambda h: h ^ 1 if h >> 1 == edge else h)
    return swap_records(tables.halves, 2 * edge, 2 * edge + 1)


def swap_records(records, i, j):
    records[i], records[j] = records[j], records[i]
    return True


def rename_faces(rng, tables):
    """The outer face and an inner one swapped, with all links to them."""
    f = len(tables.adj)
    if f < 2:
        return False
    k = rng.randrange(1, f)
    rename(tables, (FACE,), (), lambda face: {0: k, k: 0}.get(face, face))
    return swap_records(tables.adj, 0, k)


def flip(rng, tables):
    """The edge between two inner faces becomes their other diagonal."""
    edges = inner_edges(tables)
    if not edges:
        return False
    h = 2 * rng.choice(edges)
    g = h + 1
    halves = tables.halves
    h1, h2, g1, g2 = halves[h][NEXT], halves[h][PREV], halves[g][NEXT], halves[g][PREV]
    a, b = halves[h][ORIGIN], halves[g][ORIGIN]
    face_h, face_g = halves[h][FACE], halves[g][FACE]
    tables.out[a], tables.out[b] = g1, h1
    halves[h][ORIGIN], halves[g][ORIGIN] = halves[g2][ORIGIN], halves[h2][ORIGIN]
    for face, ring in ((face_h, (h, h2, g1)), (face_g, (g, g2, h1))):
        tables.adj[face] = ring[0]
        for i in range(3):
            halves[ring[i]][FACE] = face
            link_up(tables, ring[i - 1], ring[i])
    return True


def join_faces(rng, tables):
    """An edge between two faces taken out, the two joined, the last edge and face renumbered."""
    if len(tables.adj) < 2:
        return False
    halves = tables.halves
    h = rng.randrange(len(halves))
    if halves[h ^ 1][FACE] == 0:
        h ^= 1
    g = h ^ 1
    kept, gone = halves[h][FACE], halves[g][FACE]
    tables.out[halves[h][ORIGIN]], tables.out[halves[g][ORIGIN]] = halves[g][NEXT], halves[h][NEXT]
    tables.adj[kept] = halves[h][NEXT]
    before_h, after_h, before_g, after_g = halves[h][PREV], halves[h][NEXT], halves[g][PREV], halves[g][NEXT]
    link_up(tables, before_h, after_g)
    link_up(tables, before_g, after_h)
    rename(tables, (FACE,), (), lambda face: kept if face == gone else face)
    last_face, edge, last_edge = len(tables.adj) - 1, h // 2, len(halves) // 2 - 1
    rename(tables, (FACE,), (), lambda face: gone if face == last_face else face)
    tables.adj[gone] = tables.adj[last_face]
    del tables.adj[-1]
    halves[2 * edge:2 * edge + 2] = halves[-2:]
    del halves[-2:]
    rename(tables, (NEXT, PREV), (tables.out, tables.adj),
           lambda link: 2 * edge + (link & 1) if link >> 1 == last_edge else link)
    return True


def add_spike(rng, tables):
    """A new entry inside a face, joined by one edge to a corner of the face."""
    if not tables.halves:
        return False
    n, e, _ = tables.sizes()
    halves = tables.halves
    h = rng.randrange(2 * e)
    after, face, corner = halves[h][NEXT], halves[h][FACE], halves[h ^ 1][ORIGIN]
    tables.places.append(any_place(rng, tables))
    tables.out.append(2 * e + 1)
    halves += [[None, None, face, corner], [None, None, face, n]]
    link_up(tables, h, 2 * e)
    link_up(tables, 2 * e, 2 * e + 1)
    link_up(tables, 2 * e + 1, after)
    return True


def add_loop(rng, tables):
    """A new edge from an entry to itself, around a new face."""
    if not tables.halves:
        return False
    _, e, f = tables.sizes()
    halves = tables.halves
    h = rng.randrange(2 * e)
    after, face, corner = halves[h][NEXT], halves[h][FACE], halves[h ^ 1][ORIGIN]
    halves += [[None, None, face, corner], [None, None, f, corner]]
    tables.adj.append(2 * e + 1)
    link_up(tables, h, 2 * e)
    link_up(tables, 2 * e, after)
    link_up(tables, 2 * e + 1, 2 * e + 1)
    return True


def add_twin(rng, tables):
    """A new edge beside an edge, with a new face of two halves between them."""
    if not tables.halves:
        return False
    _, e, f = tables.sizes()
    halves = tables.halves
    h = rng.randrange(2 * e)
    before, after, face = halves[h][PREV], halves[h][NEXT], halves[h][FACE]
    here, there = halves[h][ORIGIN], halves[h ^ 1][ORIGIN]
    halves += [[None, None, face, here], [None, None, f, there]]
    tables.adj[face] = 2 * e
    tables.adj.append(h)
    halves[h][FACE] = f
    link_up(tables, before, 2 * e)
    link_up(tables, 2 * e, after)
    link_up(tables, h, 2 * e + 1)
    link_up(tables, 2 * e + 1, h)
    return True


def add_copy(rng, tables):
    """The map twice: the copy's outer face is an inner face more."""
    n, e, f = tables.sizes()
    if n < 2 or 2 * n > 4096:
        return False
    tables.places += tables.places
    tables.out += [link + 2 * e for link in tables.out]
    tables.halves += [[after + 2 * e, before + 2 * e, face + f, entry + n]
                      for after, before, face, entry in tables.halves]
    tables.adj += [link + 2 * e for link in tables.adj]
    return True


def cross_links(rng, tables):
    """The followers of two halves swapped, `prev` with them; the halves often have much in common."""
    halves = tables.halves
    if not halves:
        return False
    h = rng.randrange(len(halves))
    alike = [
        lambda g: True,
        lambda g: halves[g][FACE] == halves[h][FACE],
        lambda g: halves[g ^ 1][ORIGIN] == halves[h ^ 1][ORIGIN],
    ][rng.randrange(3)]
    others = [g for g in range(len(halves)) if g != h and alike(g)]
    if not others:
        return False
    g = rng.choice(others)
    after_h, after_g = halves[h][NEXT], halves[g][NEXT]
    link_up(tables, h, after_g)
    link_up(tables, g, after_h)
    return True


def merge_records(rng, tables):
    """All halves of an entry, or of a face, given to another one."""
    column, count = rng.choice([(ORIGIN, len(tables.out)), (FACE, len(tables.adj))])
    if count < 2:
        return False
    gone, kept = rng.sample(range(count), 2)
    rename(tables, (column,), (), lambda record: kept if record == gone else record)
    return True


def mirror(rng, tables):
    """All places mirrored."""
    tables.places = [(str(GRID - int(x)), y) for x, y in tables.places]
    return len(tables.places) > 0


def round_places(rng, tables):
    """All places rounded to a coarser grid, so that many fall together or on one line."""
    step = rng.choice([2, 3, 5, 50])
    tables.places = [(str(int(x) // step * step), str(int(y) // step * step)) for x, y in tables.places]
    return len(tables.places) > 0


SIMPLE = [change_half, change_half, change_half, change_out, change_adjacent, move_place, move_place, share_place,
          place_on_edge, leave_grid, swap_places, swap_halves, change_count, change_count, change_lengths,
          change_shelf_count]
FITTING = [rename_halves, rename_faces, flip, flip, join_faces, join_faces, add_spike, add_loop, add_twin, add_copy,
           cross_links, cross_links, merge_records, mirror, round_places]


def damaged(rng, sound):
    """A damaged copy of a sound map, and the names of its one or two damages."""
    while True:
        tables = copy.deepcopy(sound)
        damage = rng.choice(rng.choice([SIMPLE, FITTING]))
        if not damage(rng, tables):
            continue
        names = [damage.__name__]
        if rng.randrange(5) == 0:
            second = rng.choice(SIMPLE)
            if second(rng, tables):
                names.append(second.__name__)
        return names, tables


# ---- the two programs and the generator ----


def run(command, text, statuses):
    """Runs a program on a text and gives what it writes."""
    try:
        done = subprocess.run(command, input=text.encode(), capture_output=True, check=False)
    except OSError as error:
        raise Failure("%s: %s" % (command[0], error)) from error
    if done.returncode not in statuses:
        raise Failure("%s: status %d, %s" % (" ".join(command), done.returncode, done.stderr.decode(errors="replace")))
    return done.stdout.decode()


def generated(corpus, seed, count, largest):
    """The sound maps of the generator: those before and those after the erasures."""
    text = run([corpus, str(seed), str(count), str(largest)], "", [0])
    parts = re.split(r"^(?:case|answer) .*$", text, flags=re.MULTILINE)
    return [read_map(iter(part.split())) for part in parts[1:]]


def reference_words(oracle, tables):
    """What the reference checker says of the tables."""
    return run([oracle, "check"], map_text(tables), [0, 1]).strip()


def pad_answers(pad, batch):
    """The answer of each check, in pad's words after `check: `."""
    text = run([pad], "".join(map(script_of, batch)), [0])
    parts = text.split("kind point: the shelf is empty\n")[2:]
    if len(parts) != len(batch):
        raise Failure("pad answered %d of %d tables" % (len(parts), len(batch)))
    return [check_answer(part) for part in parts]


def check_answer(part):
    """The answer of the one check among the answers to one script."""
    bad = re.search(r"^line \d+: .*$", part, re.MULTILINE)
    if bad:
        raise Failure("pad does not understand a script: " + bad.group())
    answers = re.findall(r"^check: (.*)$", part, re.MULTILINE)
    if len(answers) != 1:
        raise Failure("pad gave %d answers to a check" % len(answers))
    return answers[0]


# ---- what pad must answer ----


def size_fault(tables):
    """The clause of rule 1 that the reference checker does not know and that fails, or None."""
    n, e, f = tables.sizes()
    entries, edges, faces, room = tables.lengths or (n, e + n, f + n, 3 * n + 8 * (e + n) + f + n)
    shelf = n + len(tables.spare)
    if (shelf if tables.count is None else min(tables.count, shelf)) != n:
        return 2
    if 3 * entries + 8 * edges + faces > room:
        return 3
    if entries < n or edges < e + n or faces < f + n:
        return 4
    return None


def place_fault(tables, entry):
    """Axis and cause of an entry without a place."""
    causes = map(cause_of, tables.places[entry])
    return next(axis + " " + cause for axis, cause in zip("xy", causes) if cause)


def due_answer(tables, words):
    """The answer that pad must give, made from the words of the reference checker."""
    fault = re.fullmatch(r"fault (\d+) clause (\d+): (.*)", words)
    if not fault and words != "sound":
        raise Failure("the reference checker says: " + words)
    key = (int(fault[1]), int(fault[2])) if fault else None
    clause = size_fault(tables)
    if clause and key != (1, 1):
        return "refused, fault 1 clause %d" % clause
    if not fault:
        return "accepted"
    records = fault[3].split(", ")[:RECORDS.get(key, 1)]
    if not all(re.fullmatch(r"(entry|half|edge|face) \d+", record) for record in records):
        raise Failure("the reference checker says: " + words)
    if key == (2, 1):
        records.append(place_fault(tables, int(records[0].split()[1])))
    return " ".join(["refused, fault %d clause %d" % key] + records)


# ---- the comparison ----


def cases_of(rng, maps, damages):
    """All tables to compare, each with the names of its damages."""
    for counts in [(0, 0, 1), (0, 0, 0), (0, 0, 2), (1, 0, 1), (1, 0, 2), (2, 0, 1), (0, 0, 8192), (0, 0, 8193),
                   (4096, 0, 1), (4097, 0, 1), (0, 12288, 1), (0, 12289, 1), (4097, 12289, 8193)]:
        yield ["bare counts"], bare_tables(*counts)
    for sound in maps:
        yield ["none"], sound
        for _ in range(damages):
            yield damaged(rng, sound)


def batches(cases, size):
    """Parts of the cases, each with about this many records in all."""
    part, records = [], 0
    for case in cases:
        part.append(case)
        records += sum(case[1].sizes())
        if records >= size:
            yield part
            part, records = [], 0
    if part:
        yield part


def without_numbers(answer):
    """An answer without the numbers of records: rule, clause and kinds."""
    return re.sub(r"(entry|half|edge|face) \d+", r"\1", answer.removeprefix("refused, "))


def tell_disagreement(names, tables, words, due, answer):
    print("\nDISAGREEMENT, damage: " + ", ".join(names))
    print("the reference checker says: " + words)
    print("due:  check: " + due)
    print("pad:  check: " + answer)
    print(script_of(tables), flush=True)


def tell_counts(title, agreed, wrong):
    print("\n" + title)
    for key in sorted(set(agreed) | set(wrong)):
        print("  %-42s %7d agree %5d do not" % (key, agreed[key], wrong[key]))


def compare(options):
    """Compares all, and tells how many disagree."""
    rng = random.Random(options.seed)
    maps = generated(options.corpus, options.seed, options.maps, options.largest)
    maps = [sound for sound in maps if len(sound.places) >= options.smallest]
    if not maps:
        raise Failure("there are no maps to compare")
    by_answer = collections.Counter(), collections.Counter()
    by_damage = collections.Counter(), collections.Counter()
    for part in batches(cases_of(rng, maps, options.damages), 50000):
        answers = pad_answers(options.pad, [tables for _, tables in part])
        for (names, tables), answer in zip(part, answers):
            words = reference_words(options.oracle, tables)
            due = due_answer(tables, words)
            wrong = due != answer
            by_answer[wrong][without_numbers(due)] += 1
            by_damage[wrong][names[0]] += 1
            if wrong:
                tell_disagreement(names, tables, words, due, answer)
    agreed, wrong = (sum(counts.values()) for counts in by_answer)
    entries = [len(sound.places) for sound in maps]
    print("\nsound maps: %d, of %d to %d entries" % (len(maps), min(entries), max(entries)))
    print("damaged copies and bare tables: %d" % (agreed + wrong - len(maps)))
    print("agreements: %d" % agreed)
    print("disagreements: %d" % wrong)
    tell_counts("by the answer that is due:", *by_answer)
    tell_counts("by the first damage:", *by_damage)
    return wrong


def read_options():
    parser = argparse.ArgumentParser(
        description=__doc__, formatter_class=argparse.RawDescriptionHelpFormatter)
    parser.add_argument("--oracle", required=True, help="the reference checker")
    parser.add_argument("--corpus", required=True, help="the generator of sound maps")
    parser.add_argument("--pad", required=True, help="the program pad")
    parser.add_argument("--seed", type=int, default=1, help="for the generator and the damages")
    parser.add_argument("--maps", type=int, default=300, help="how many cases the generator makes, two maps each")
    parser.add_argument("--largest", type=int, default=40, help="the most entries of a map")
    parser.add_argument("--smallest", type=int, default=0, help="maps with fewer entries are left out")
    parser.add_argument("--damages", type=int, default=12, help="damaged copies of each map")
    return parser.parse_args()


def main():
    try:
        return 1 if compare(read_options()) else 0
    except Failure as failure:
        print("compare_check: %s" % failure, file=sys.stderr)
        return 2


if __name__ == "__main__":
    sys.exit(main())
