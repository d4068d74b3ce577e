#!/usr/bin/env python3
"""Brings the repository's own names of definitions and lemmas to snake case, and its own types to camel case.

Run once, at the top, right after the kit's port.py:  python3 tools/respell.py [--dry]

A name counts as the repository's own where a file of specs/ or proofs/ binds it (answer files aside, whose names
are made from the code). Imports from the kit, strings, comments of code and the names of src/ stay. A new name that
the tree already has is said; the table CHOSEN then gives it another.
"""
import collections
import glob
import re
import sys

FILES = sorted(glob.glob("crates/*/specs/**/*.antt", recursive=True) + glob.glob("crates/*/proofs/**/*.antt", recursive=True))
CODE = sorted(glob.glob("crates/*/src/**/*.rt", recursive=True))
MADE = ("Answers.antt", "Invariants.antt", "Proof.antt")
NAME = r"[^\s(){}\[\]⌜⌝⟦⟧;,.«»\"|]+"
TOKEN = re.compile(NAME)
# where two names would fall together, or with one that the tree has
CHOSEN = {
    "cutOff": "hull_cut_off", "entryIn": "is_entry_in", "halfIn": "is_half_in", "faceIn": "is_face_in",
    "face-of": "face_of_half", "first-failing": "first_failing_is", "hasZero": "has_zero_byte", "origin-of": "origin_back",
    "packName": "packed_name", "placeAt": "point_at", "readFloat": "float_reading", "sameSpot": "is_same_spot",
    "setHalf": "set_half_links", "shapeAfter": "shape_after_check", "wordsAfter": "words_after_check",
    "xOf": "x_coordinate", "yOf": "y_coordinate", "h-a": "h_at_a", "o-a": "o_at_a", "next-Y": "next_big_y",
    "prev-A": "prev_big_a", "next-on": "next_on_holds", "of-face": "of_face_live", "on-segment": "on_segment_between",
    "dec-le": "dec_nat_le", "dec-lt": "dec_nat_lt", "Half-named": "IsHalfNamed", "On-segment": "IsOnSegment",
    "Scan-flip": "ScanFlips", "Scan-start": "ScanStarts", "Star-mesh": "StarIsMesh",
}
CRATES = {f.split("/")[1] for f in FILES} | {f.split("/")[1] for f in CODE}


def own_path(path):
    parts = path.split(".")
    return parts[0] == "Rattle" and len(parts) > 1 and parts[1] in CRATES


def wants(name):
    """A name that is not in the library's spelling: a dash between words, or a capital inside."""
    if re.search(r"[^A-Za-z0-9_'\-]", name) or name.startswith("-") or name.endswith("-"):
        return False
    if re.match(r"[A-Z](-|[0-9]|$)", name):  # S-swap, N-H: a symbol and a word
        return False
    if name[0].isupper():
        return "-" in name
    return "-" in name or re.search(r"[a-z][A-Z]", name) is not None


def respelled(name):
    if name in CHOSEN:
        return CHOSEN[name]
    if name[0].isupper():
        return "".join(w[:1].upper() + w[1:] for w in name.split("-"))
    words = name.replace("-", "_")
    words = re.sub(r"([a-z0-9])([A-Z])", lambda m: m.group(1) + "_" + m.group(2).lower(), words)
    return words.lower() if words.isascii() else words


def code_of(line):
    """The line without its comment."""
    m = re.search(r"(^|\s)--(\s|$)", line)
    return (line[: m.start()], line[m.start():]) if m else (line, "")


def imported(text):
    """Names that a file takes from elsewhere than this repository, and made names."""
    names = set()
    for m in re.finditer(r"^(?:ghost )?use ([^\s{};]+?)\.\{([^}]*)\}", text, re.M):
        if not own_path(m.group(1)) or ".declared" in m.group(1) or m.group(1).endswith(".Goals"):
            for n in m.group(2).split(","):
                names.update(n.replace(" as ", " ").split())
    return names


def main():
    dry = "--dry" in sys.argv
    texts = {f: open(f).read() for f in FILES + CODE}
    foreign = {f: imported(t) for f, t in texts.items()}
    bound, every = set(), collections.Counter()
    made = set()
    for f in FILES:
        heads = set()
        for line in texts[f].split("\n"):
            code, _ = code_of(line)
            tokens = TOKEN.findall(code)
            every.update(tokens)
            if f.endswith(MADE):
                m = re.match(r"(?:abbrev |pub |unfoldable )*(" + NAME + r")", code)
                if m and not code.startswith("use "):
                    made.add(m.group(1))
                continue
            if re.match(r"\s*(pub )?use ", code):
                continue
            heads.update(t for t in tokens if wants(t) and t not in foreign[f])
        bound |= heads
    for f in CODE:
        every.update(TOKEN.findall(texts[f]))
    imports = set().union(*foreign.values())
    bound -= {n for n in bound if n in made and not re.search(r"^\s*(abbrev |pub |unfoldable )*" + re.escape(n) + r" :", "\n".join(texts[f] for f in FILES if not f.endswith(MADE)), re.M)}
    # names that only a path to made modules has
    names, clash = {}, []
    for n in sorted(bound):
        new = respelled(n)
        names[n] = new
    back = collections.defaultdict(list)
    for n, new in names.items():
        back[new].append(n)
    for new, olds in sorted(back.items()):
        if len(olds) > 1 or every[new] or new in imports:
            clash.append((new, olds, every[new], new in imports))
    for new, olds, k, imp in clash:
        print("clash", new, olds, k, "imported" if imp else "")
    print(len(names), "names;", len(clash), "clashes;", "also made:", sorted(set(names) & made))
    if dry:
        return
    for f, text in texts.items():
        out = []
        for line in text.split("\n"):
            out.append(turn(line, names, foreign[f], f))
        new = "\n".join(out)
        if new != text:
            open(f, "w").write(new)


def turn(line, names, foreign, f):
    if f.endswith(".rt"):
        stripped = line.strip()
        if stripped.startswith("//"):
            return line
        parts = re.split(r'("(?:[^"\\]|\\.)*")', line)
        return "".join(p if p.startswith('"') else tokens(p, names, foreign) for p in parts)
    code, comment = code_of(line)
    m = re.match(r"((?:pub )?use )([^\s{}]+?)(\.\{[^}]*\})?\s*$", code)
    if m and (not own_path(m.group(2)) or ".declared" in m.group(2) or m.group(2).endswith(".Goals")):
        return line
    return tokens(code, names, foreign) + comment


def tokens(code, names, foreign):
    return TOKEN.sub(lambda m: names[m.group(0)] if m.group(0) in names and m.group(0) not in foreign else m.group(0), code)


main()
