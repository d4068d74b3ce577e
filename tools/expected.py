"""An independent model of pad: computes what a script must print.

Reads a script on standard input and writes the answers on standard output:

    python3 tools/expected.py < crates/pad/stdin

The model follows docs/FORMATS.md (scripts and answers), docs/MODEL.md (places,
records, memory) and docs/RULES.md (the eight rules). It searches by brute force
and computes with whole numbers of any size.
"""

import math
import re
import struct
import sys
from decimal import Decimal
from fractions import Fraction

NONE = 4294967295  # a link that leads nowhere; also the highest 32-bit number
MOST = 4194304  # the most numbers that the slice of a script's draft may have
GRID = 16383  # the highest coordinate

# White space as Unicode has it.
SPACE = re.compile("[\t-\r \x85\xa0\u1680\u2000-\u200a\u2028\u2029\u202f\u205f\u3000]+")
WHOLE = re.compile(r"\+?[0-9]+")
FLOAT = re.compile(
    r"[+-]?(inf|infinity|nan|([0-9]+\.?[0-9]*|\.[0-9]+)(e[+-]?[0-9]+)?)", re.IGNORECASE
)


class Complaint(Exception):
    """What is wrong with a line."""


# Words


class Words:
    """The words of a line, up to a comment, read from left to right."""

    def __init__(self, text):
        self.rest = []
        for word in SPACE.split(text):
            if word.startswith("#"):
                break
            if word:
                self.rest.append(word)

    def optional(self):
        return self.rest.pop(0) if self.rest else None

    def word(self, what):
        word = self.optional()
        if word is None:
            raise Complaint(f"the {what} is missing")
        return word

    def end(self):
        if self.rest:
            raise Complaint(f"'{self.rest[0]}' is one word too many")

    def number(self, what, bits):
        return whole(self.word(what), what, bits)

    def number_or(self, what, other):
        word = self.optional()
        return other if word is None else whole(word, what, 32)

    def link(self, what):
        word = self.word(what)
        return NONE if word == "-" else whole(word, what, 32)

    def double(self, what):
        word = self.word(what)
        if not FLOAT.fullmatch(word):
            raise Complaint(f"'{word}' is no {what}")
        return float(word)


def whole(word, what, bits):
    """The whole number of so many bits that a word spells."""
    if not WHOLE.fullmatch(word) or int(word) >= 2**bits:
        raise Complaint(f"'{word}' is no {what}")
    return int(word)


# Floats


def bits_of_single(value):
    return struct.unpack("<I", struct.pack("<f", value))[0]


def single_of_bits(bits):
    return struct.unpack("<f", struct.pack("<I", bits))[0]


def nearest_single(word):
    """The 32-bit float nearest to a decimal, the even one of two."""
    value = float(word)
    if value == 0 or math.isinf(value) or math.isnan(value):
        return value
    try:
        bits = bits_of_single(value)
    except OverflowError:
        return math.copysign(math.inf, value)
    # The word was rounded to 64 bits first, which can be one step off.
    steps = [b for b in (bits - 1, bits, bits + 1) if 0 <= b < 2**32]
    near = [b for b in steps if math.isfinite(single_of_bits(b))]
    exact = Fraction(word)
    best = min(near, key=lambda b: (abs(Fraction(single_of_bits(b)) - exact), b % 2))
    return single_of_bits(best)


def show_decimal(value, text):
    """A float without exponent, from a decimal that spells it."""
    if math.isnan(value):
        return "NaN"
    if math.isinf(value):
        return "inf" if value > 0 else "-inf"
    shown = format(Decimal(text), "f")
    return shown.rstrip("0").rstrip(".") if "." in shown else shown


def show_double(value):
    """The shortest decimal that reads back as this 64-bit float."""
    return show_decimal(value, repr(value))


def show_single(value):
    """The shortest decimal that reads back as this 32-bit float."""
    for digits in range(9):
        text = f"{value:.{digits}e}"
        if not math.isfinite(value) or nearest_single(text) == value:
            break
    return show_decimal(value, text)


# Entries


def read_scalar(value):
    """The number of the grid that a scalar equals, or the cause why there is none."""
    if value != value:
        return None, "not a number"
    if value < 0:
        return None, "below 0"
    if value > GRID:
        return None, "above 16383"
    if value != int(value):
        return None, "a fraction"
    return int(value), None


class Entry:
    """An entry of the shelf: its place, or the fault that names axis and cause."""

    named = False

    def locate(self, x, y):
        self.place = self.fault = None
        across, cause = read_scalar(x)
        if cause:
            self.fault = f"x {cause}"
            return
        along, cause = read_scalar(y)
        if cause:
            self.fault = f"y {cause}"
            return
        self.place = (across, along)


class Point(Entry):
    kind = "point"

    def __init__(self, words):
        self.x = words.double("x")
        self.y = words.double("y")
        self.locate(self.x, self.y)

    def details(self):
        return f"written as {show_double(self.x)} {show_double(self.y)}"


class Preset(Entry):
    kind = "preset"

    def __init__(self, words):
        x = words.number("x", 16)
        y = words.number("y", 16)
        name = words.word("name")
        self.name = name.encode()
        self.named = name != "-"
        if len(self.name) > 8 or 0 in self.name:
            raise Complaint(f"'{name}' is no name of at most eight bytes")
        setting = words.word("setting")
        self.setting = self.spelled(setting)
        if self.setting is None:
            raise Complaint(f"'{setting}' is no setting")
        self.locate(x, y)

    @staticmethod
    def spelled(setting):
        """A setting as it is shown, or nothing if it is none."""
        if setting in ("switch:yes", "switch:no", "unset"):
            return setting
        dial, _, turn = setting.partition(":")
        if dial == "dial" and FLOAT.fullmatch(turn):
            return f"dial:{show_single(nearest_single(turn))}"
        return None

    def details(self):
        if not self.named:
            return self.setting
        name = "".join(chr(b) if 32 <= b < 127 else "?" for b in self.name)
        return f"'{name}', {self.setting}"


KINDS = {"point": Point, "preset": Preset}


# Two determinants


def S(a, b, q):
    return (b[0] - a[0]) * (q[1] - a[1]) - (b[1] - a[1]) * (q[0] - a[0])


def C(a, b, c, d):
    rows = []
    for p in (a, b, c):
        x, y = p[0] - d[0], p[1] - d[1]
        rows.append((x, y, x * x + y * y))
    (a1, a2, a3), (b1, b2, b3), (c1, c2, c3) = rows
    return a1 * (b2 * c3 - b3 * c2) - a2 * (b1 * c3 - b3 * c1) + a3 * (b1 * c2 - b2 * c1)


def on_segment(a, b, q):
    """On the line through a and b, and between them or equal to one of them."""
    between = all(min(a[i], b[i]) <= q[i] <= max(a[i], b[i]) for i in (0, 1))
    return S(a, b, q) == 0 and between


# Drafts and maps


class Tables:
    """Places and links in one slice, with three counts and three table lengths."""

    def __init__(self, counts, lengths, length):
        self.n, self.e, self.f = counts
        self.entries, self.edges, self.faces = lengths
        self.slice = [NONE] * length
        self.settled = False

    def size(self):
        return 3 * self.entries + 8 * self.edges + self.faces

    def record(self, kind, i):
        """Where the numbers of a record lie, or nothing past its table."""
        start, length, width = {
            "out": (0, self.entries, 3),
            "half": (3 * self.entries, 2 * self.edges, 4),
            "face": (3 * self.entries + 8 * self.edges, self.faces, 1),
        }[kind]
        return range(start + width * i, start + width * (i + 1)) if i < length else None

    def read(self, kind, i):
        """The numbers of a record; none past its table or past the slice."""
        where = self.record(kind, i)
        if where is None or (self.settled and self.n == 0):
            return [NONE] * {"out": 3, "half": 4, "face": 1}[kind]
        return [self.slice[at] if at < len(self.slice) else NONE for at in where]

    def write(self, kind, i, links):
        """Writes the last numbers of a record, if all of it lies in the slice."""
        where = self.record(kind, i)
        if where is None or where[-1] >= len(self.slice):
            return False
        for at, link in zip(where[-len(links):], links):
            self.slice[at] = link
        return True

    def settle(self, shelf, count):
        fault = check(self, shelf, count)
        if fault:
            self.n, self.e, self.f = 0, 0, 1
        else:
            for v in range(self.n):
                self.slice[3 * v], self.slice[3 * v + 1] = shelf[v].place
        self.settled = True
        return fault


def check(tables, shelf, count):
    """The first clause that does not hold, or nothing."""
    return next(broken(tables, shelf, count), None)


def cycle(start, step):
    """The halves that are met from a half on, until it is met again."""
    met = [start]
    while step(met[-1]) != start:
        met.append(step(met[-1]))
    return met


def broken(t, shelf, count):
    """The clauses that do not hold, in the order of docs/RULES.md.

    A clause relies on all clauses before it, so only the first answer counts;
    what follows it is never computed.
    """
    n, e, f = t.n, t.e, t.f

    # Rule 1: sizes.
    if not (n <= 4096 and e <= 12288 and 1 <= f <= 8192):
        yield "fault 1 clause 1"
    if min(count, len(shelf)) != n:
        yield "fault 1 clause 2"
    if t.size() > len(t.slice):
        yield "fault 1 clause 3"
    if not (t.entries >= n and t.edges >= e + n and t.faces >= f + n):
        yield "fault 1 clause 4"

    # Rule 2: places.
    for v in range(n):
        if shelf[v].place is None:
            yield f"fault 2 clause 1 entry {v} {shelf[v].fault}"

    entries, halves, edges, faces = range(n), range(2 * e), range(e), range(f)
    place = [shelf[v].place for v in entries]
    out_edge = [t.read("out", v)[2] for v in entries]
    half = [t.read("half", h) for h in halves]
    next_, prev, face, origin = ([links[i] for links in half] for i in range(4))
    adjacent_edge = [t.read("face", k)[0] for k in faces]

    # Rule 3: links name records.
    for v in entries:
        if out_edge[v] != NONE and out_edge[v] not in halves:
            yield f"fault 3 clause 1 entry {v}"
    for h in halves:
        named = next_[h] in halves and prev[h] in halves
        if not (named and face[h] in faces and origin[h] in entries):
            yield f"fault 3 clause 1 half {h}"
    for k in faces:
        if adjacent_edge[k] != NONE and adjacent_edge[k] not in halves:
            yield f"fault 3 clause 1 face {k}"
    for v in entries:
        if (out_edge[v] == NONE) != (n < 2):
            yield f"fault 3 clause 2 entry {v}"
    for k in faces:
        if (adjacent_edge[k] == NONE) != (n < 2):
            yield f"fault 3 clause 2 face {k}"

    def rev(h):
        return h + 1 if h % 2 == 0 else h - 1

    def to(h):
        return origin[rev(h)]

    # Rule 4: links fit together.
    for h in halves:
        if prev[next_[h]] != h or next_[prev[h]] != h:
            yield f"fault 4 clause 1 half {h}"
    for h in halves:
        if face[h] != face[next_[h]]:
            yield f"fault 4 clause 2 half {h}"
    for h in halves:
        if to(h) != origin[next_[h]]:
            yield f"fault 4 clause 3 half {h}"
    for v in entries:
        around = [] if out_edge[v] == NONE else cycle(out_edge[v], lambda h: rev(prev[h]))
        if sorted(around) != [h for h in halves if origin[h] == v]:
            yield f"fault 4 clause 4 entry {v}"
    along = []
    for k in faces:
        start = adjacent_edge[k]
        along.append([] if start == NONE else cycle(start, lambda h: next_[h]))
        if sorted(along[k]) != [h for h in halves if face[h] == k]:
            yield f"fault 4 clause 4 face {k}"
    for k in edges:
        if f > 1 and face[2 * k] == face[2 * k + 1]:
            yield f"fault 4 clause 5 edge {k}"
    for k in edges:
        if origin[2 * k] == to(2 * k):
            yield f"fault 4 clause 6 edge {k}"
    if (n + f != e + 2) if n > 0 else (e != 0 or f != 1):
        yield "fault 4 clause 7"

    # Rule 5: inner faces are triangles.
    inner = faces[1:]
    for k in inner:
        corners = [place[origin[h]] for h in along[k]]
        if len(corners) != 3 or S(*corners) <= 0:
            yield f"fault 5 clause 1 face {k}"

    # Rule 6: edges.
    ends = [(origin[2 * k], to(2 * k)) for k in edges]
    for k in edges:
        a, b = ends[k]
        if place[a] == place[b]:
            yield f"fault 6 clause 1 edge {k}"
    for k in edges:
        for l in edges[k + 1:]:
            if set(ends[k]) == set(ends[l]):
                yield f"fault 6 clause 2 edge {k} edge {l}"
    for k in edges:
        a, b = ends[k]
        for v in entries:
            if v not in (a, b) and on_segment(place[a], place[b], place[v]):
                yield f"fault 6 clause 3 edge {k} entry {v}"

    # Rule 7: the hull.
    for h in halves:
        for v in entries:
            if face[h] == 0 and S(place[origin[h]], place[to(h)], place[v]) > 0:
                yield f"fault 7 clause 1 half {h} entry {v}"

    # Rule 8: empty circles.
    for k in inner:
        corners = [place[origin[h]] for h in along[k]]
        for v in entries:
            if C(*corners, place[v]) > 0:
                yield f"fault 8 clause 1 face {k} entry {v}"


# The script


class Player:
    """A shelf of one kind, the count that goes with it, and a draft or a map."""

    def __init__(self):
        self.lines = []
        self.start("point")

    def say(self, line):
        self.lines.append(line)

    def start(self, kind):
        self.kind = kind
        self.shelf = []
        self.given = None
        self.tables = None
        self.say(f"kind {kind}: the shelf is empty")

    def play(self, script):
        lines = script.split(b"\n")
        if lines[-1] == b"":
            lines.pop()
        for number, line in enumerate(lines, 1):
            try:
                self.play_line(line)
            except Complaint as complaint:
                self.say(f"line {number}: {complaint}")

    def play_line(self, line):
        try:
            words = Words(line.decode())
        except UnicodeDecodeError:
            raise Complaint("not text in UTF-8") from None
        command = words.optional()
        if command is None:
            return
        has_draft = self.tables is not None and not self.tables.settled
        has_map = self.tables is not None and self.tables.settled
        if command in ("out", "half", "face", "check", "settle") and not has_draft:
            raise Complaint("there is no draft")
        if command in ("reopen", "walk", "hull") and not has_map:
            raise Complaint("there is no map")
        if command == "show" and self.tables is None:
            raise Complaint("there is no map")
        commands = {
            "kind": self.do_kind,
            "entry": self.do_entry,
            "side": self.do_side,
            "circle": self.do_circle,
            "list": self.do_list,
            "count": self.do_count,
            "draft": self.do_draft,
            "out": self.do_out,
            "half": self.do_half,
            "face": self.do_face,
            "check": self.do_check,
            "settle": self.do_settle,
            "reopen": self.do_reopen,
            "show": self.do_show,
            "walk": self.do_walk,
            "hull": self.do_hull,
            "unnamed": self.do_unnamed,
        }
        if command not in commands:
            raise Complaint(f"unknown command '{command}'")
        commands[command](words)

    # The shelf.

    def do_kind(self, words):
        kind = words.word("kind")
        if kind not in KINDS:
            raise Complaint(f"'{kind}' is no kind")
        words.end()
        self.start(kind)

    def do_entry(self, words):
        entry = KINDS[self.kind](words)
        words.end()
        number = len(self.shelf)
        self.shelf.append(entry)
        if entry.place:
            named = "named" if entry.named else "not named"
            self.say(f"entry {number}: place ({entry.place[0]}, {entry.place[1]}), {named}")
        else:
            self.say(f"entry {number}: refused, {entry.fault}")

    def places(self, words, amount):
        """The numbers that a line names, and the places of these entries."""
        numbers = [words.number("entry number", 64) for _ in range(amount)]
        words.end()
        for i in numbers:
            if i >= len(self.shelf):
                raise Complaint(f"there is no entry {i}")
            if self.shelf[i].fault:
                raise Complaint(f"entry {i} has no place, {self.shelf[i].fault}")
        return " ".join(map(str, numbers)), [self.shelf[i].place for i in numbers]

    def do_side(self, words):
        numbers, places = self.places(words, 3)
        value = S(*places)
        where = "left" if value > 0 else "right" if value < 0 else "on the line"
        self.say(f"side {numbers}: {value}, {where}")

    def do_circle(self, words):
        numbers, places = self.places(words, 4)
        value = C(*places)
        self.say(f"circle {numbers}: {value}, {'inside' if value > 0 else 'not inside'}")

    def do_list(self, words):
        words.end()
        self.say(f"list: {len(self.shelf)} of kind {self.kind}")
        for number, entry in enumerate(self.shelf):
            if entry.place:
                where = f"place ({entry.place[0]}, {entry.place[1]})"
            else:
                where = f"no place, {entry.fault}"
            self.say(f"  {number}: {where}, {entry.details()}")

    def do_count(self, words):
        given = words.number("count", 64)
        words.end()
        self.given = given
        self.say(f"count: {given}")

    def do_unnamed(self, words):
        words.end()
        counted = self.shelf[:self.count()]
        number = next((v for v, entry in enumerate(counted) if not entry.named), "none")
        self.say(f"unnamed: {number}")

    def count(self):
        return len(self.shelf) if self.given is None else self.given

    # Drafts and maps.

    def do_draft(self, words):
        n = words.number("number of entries", 32)
        e = words.number("number of edges", 32)
        f = words.number("number of faces", 32)
        lengths = (
            words.number_or("length of the entry table", n),
            words.number_or("length of the edge table", min(e + n, 2**32 - 1)),
            words.number_or("length of the face table", min(f + n, 2**32 - 1)),
        )
        length = 3 * lengths[0] + 8 * lengths[1] + lengths[2]
        word = words.optional()
        if word is not None:
            length = whole(word, "length of the slice", 64)
        words.end()
        if length > MOST:
            raise Complaint(f"{length} numbers are too many for a script")
        self.tables = Tables((n, e, f), lengths, length)
        self.say(f"draft: n {n} e {e} f {f}")

    def write(self, words, command, number, links):
        words.end()
        if self.tables.write(command, number, links):
            self.say(f"{command} {number}: written")
        else:
            self.say(f"{command} {number}: refused, fault 9 number {number}")

    def do_out(self, words):
        number = words.number("entry number", 32)
        self.write(words, "out", number, [words.link("out_edge")])

    def do_half(self, words):
        number = words.number("half number", 32)
        links = [words.link(what) for what in ("next", "prev", "face", "origin")]
        self.write(words, "half", number, links)

    def do_face(self, words):
        number = words.number("face number", 32)
        self.write(words, "face", number, [words.link("adjacent_edge")])

    def do_check(self, words):
        words.end()
        fault = check(self.tables, self.shelf, self.count())
        self.say(f"check: refused, {fault}" if fault else "check: accepted")

    def do_settle(self, words):
        words.end()
        t = self.tables
        fault = t.settle(self.shelf, self.count())
        if fault:
            self.say(f"settle: refused, {fault}")
        else:
            self.say(f"settle: accepted, n {t.n} e {t.e} f {t.f}")

    def do_reopen(self, words):
        words.end()
        self.tables.settled = False
        self.say("reopen: a draft again")

    def do_show(self, words):
        words.end()
        t = self.tables

        def shown(kind, i):
            return ["-" if link == NONE else str(link) for link in t.read(kind, i)]

        self.say(f"show: n {t.n} e {t.e} f {t.f}")
        for v in range(t.n):
            x, y, out_edge = shown("out", v)
            self.say(f"  entry {v}: place {x} {y}, out_edge {out_edge}")
        for h in range(2 * t.e):
            next_, prev, face, origin = shown("half", h)
            self.say(f"  half {h}: next {next_} prev {prev} face {face} origin {origin}")
        for k in range(t.f):
            self.say(f"  face {k}: adjacent_edge {shown('face', k)[0]}")


    # Walks.

    @staticmethod
    def told(label, start, step):
        """The halves of a cycle, by the end that the last word names."""
        met = [] if start == NONE else cycle(start, step)
        if label == "front":
            return met
        if label == "back":
            return met[::-1]
        order = []
        while met:
            order.append(met.pop(0) if len(order) % 2 == 0 else met.pop())
        return order

    def way(self, words):
        word = words.optional()
        if word not in (None, "back", "both"):
            raise Complaint(f"'{word}' is no way to walk")
        words.end()
        return word or "front"

    def do_walk(self, words):
        v = words.number("entry number", 32)
        way = self.way(words)
        t = self.tables
        if v >= t.n:
            self.say(f"walk {v}: refused, fault 9 number {v}")
            return
        halves = self.told(way, t.read("out", v)[2], lambda h: t.read("half", h)[1] ^ 1)
        self.say(f"walk {v}:" + "".join(f" {h}" for h in halves))

    def do_hull(self, words):
        way = self.way(words)
        t = self.tables
        halves = self.told(way, t.read("face", 0)[0], lambda h: t.read("half", h)[0])
        self.say("hull:" + "".join(f" {h}" for h in halves))


def main():
    player = Player()
    player.play(sys.stdin.buffer.read())
    sys.stdout.buffer.write("".join(line + "\n" for line in player.lines).encode())


if __name__ == "__main__":
    main()
