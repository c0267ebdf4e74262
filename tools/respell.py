#!/usr/bin/env python3
"""Spells the repository's own definitions and lemmas as today's Rattle does: words in snake case, a dash only between two names.

usage: tools/respell.py [--list]      at the top of the repository, once, after port.py; --list only says which names change

Respelled are the names that the files of specs/ and the lemmas of proofs/ declare: definitions, lemmas, fields, constructors and the local ones in
`where` and `module _`. They are respelled in specs/, proofs/, in the clauses and comments of src/, in must-fail/, and in the pages and scripts that
name them. Types, modules, functions of src/, exported names, strings and data keep their names.
"""
import glob
import re
import sys

WORD = r"[^\s(){}.;,@\"«»`\[\]]+"
DECLARED = re.compile(rf"^( *)(?:abbrev |unfoldable )?(?:pub )?(?:record |data )?({WORD}(?: {WORD})*?) :(?= |$)", re.M)
# names of the library that were respelled by port.py and stand as parts of our own
PARTS = {"getD": "get_or", "natAbs": "nat_abs", "toBits": "to_bits", "ofInt": "of_int", "T": "T", "T'": "T'"}
# where the rule gives another thing's name, or parts a name of the Rust's elsewhere than the Rust does
BY_HAND = {
    "invertMatrix10": "invert_matrix_10",
    "in-units": "in_units_lem",
    "first-least": "first_least_lem",
    "place-of": "place_of_lem",
    "refusal-of": "refusal_of_lem",
    "unless-refused": "unless_refused_lem",
    "in-turn": "in_turn_lem",
    "by-minutes": "by_minutes_lem",
    "by-seconds": "by_seconds_lem",
    "by-rmse": "by_rmse_lem",
    "enough-of": "enough_of_lem",
    "mean-at": "mean_at_lem",
    "mean-of": "mean_of_lem",
    "root-of-minus-zero": "root_of_minus_zero",
    "at-least-the-winner's": "at_least_the_winner's",
}
# parameters and names of an import, which no declaration shows
OTHERS = {"instantArea": "instant_area", "frequencyArea": "frequency_area", "nanosecondsInSecond": "nanoseconds_in_second"}
# local names of one file that port.py gave a spelling which a definition used there takes now
LOCAL = {
    "crates/orbit/proofs/stages/try_shift/Proof.antt": {"area_of": "area_at"},
    "crates/orbit/proofs/fit/fit_satellite/Proof.antt": {"fit_of": "fit_by"},
    "crates/orbit/proofs/residuals/push_residual/Proof.antt": {"kept_of": "kept_by"},
}
# words of the library that our lemmas are about; our own definitions and functions are added below
LIBRARY = set("length get_or append take drop set put map round sum list_of nat_abs to_bits of_int of_bits mem put any concat".split())


def read(path):
    with open(path, encoding="utf-8") as f:
        return f.read()


def snake(name):
    if name in PARTS:
        return PARTS[name]
    return re.sub(r"(?<=[a-z0-9])([A-Z])", lambda m: "_" + m.group(1).lower(), name)


def parts(name):
    """The parts of a name between dashes and arrows, with what joins them."""
    return re.split(r"(-|→)", name)


def proof_of_function(path):
    return bool(re.search(r"/proofs/.*/(Proof|Answers|Invariants)\.antt$", path))


def declared():
    """Every own name with the files that declare it."""
    found = {}
    for path in sorted(glob.glob("crates/*/specs/**/*.antt", recursive=True) + glob.glob("crates/*/proofs/**/*.antt", recursive=True)):
        text = read(path)
        for m in DECLARED.finditer(text):
            line = text[m.end() : text.find("\n", m.end())]
            if proof_of_function(path) and re.match(r" (\{M : Type 1\} → statement|tie\.)", line):
                continue
            for name in m.group(2).split(" "):
                if re.fullmatch(r"[a-z].*", name) and re.search(r"[a-z][A-Z]|-|[a-z]\d[A-Z]", name):
                    found.setdefault(name, set()).add(path)
    return found


def names():
    """What each own name becomes."""
    found = declared()
    words = set(LIBRARY)
    for path in glob.glob("crates/*/src/**/*.rt", recursive=True):
        words |= set(re.findall(r"\bfn (\w+)", read(path)))
    for path in glob.glob("crates/*/specs/**/*.antt", recursive=True):
        for m in DECLARED.finditer(read(path)):
            words |= {snake(n) for n in m.group(2).split(" ") if "-" not in n and len(n) > 2}
    new = {}
    for name in found:
        if name in BY_HAND:
            new[name] = BY_HAND[name]
            continue
        out = ""
        pieces = parts(name)
        for i, piece in enumerate(pieces):
            if piece == "-":
                left, right = snake(pieces[i - 1]), snake(pieces[i + 1])
                out += "-" if left in words and right in words else "_"
            else:
                out += snake(piece)
        new[name] = out
    return {k: v for k, v in new.items() if k != v} | OTHERS


def texts():
    for pattern in ("specs/**/*.antt", "proofs/**/*.antt", "src/**/*.rt", "must-fail/*.edit"):
        yield from sorted(glob.glob("crates/*/" + pattern, recursive=True))
    yield from ["README.md", *sorted(glob.glob("docs/*.md")), "review/edits.txt"]


def token(new):
    return re.compile(rf"(?<![\w→'-])({'|'.join(sorted(map(re.escape, new), key=len, reverse=True))})(?![\w→'-])")


def respelled(text, new, dashed, comment):
    """The text with the new names; a name with a dash may be plain words, so in a comment or a page it is one only between backquotes."""
    every, plain = token(new), token({k: v for k, v in new.items() if k not in dashed})

    def in_words(words):
        words = re.sub(r"`[^`]*`", lambda m: every.sub(lambda n: new[n.group(1)], m.group(0)), words)
        return plain.sub(lambda m: new[m.group(1)], words)

    if comment is None:
        return in_words(text)
    lines = []
    for line in text.split("\n"):
        m = re.search(comment, line)
        code, words = (line[: m.start()], line[m.start() :]) if m else (line, "")
        lines.append(every.sub(lambda n: new[n.group(1)], code) + in_words(words))
    return "\n".join(lines)


def main():
    new = names()
    together = {}
    for old, word in new.items():
        together.setdefault(word, set()).add(old)
    already = set()
    for path in texts():
        if path.endswith(".antt"):
            for m in DECLARED.finditer(read(path)):
                already |= set(m.group(2).split(" "))
    for word, olds in sorted(together.items()):
        if len(olds) > 1 or word in already:
            print(f"falls together: {sorted(olds)} -> {word}{' (stands already)' if word in already else ''}")
    if "--list" in sys.argv:
        for old in sorted(new):
            print(old, "->", new[old])
        return
    dashed = {n for n in new if "-" in n}
    comments = {".antt": r"(^|\s)-- ", ".rt": r"//", ".edit": r"^#", ".txt": r"^(#|what:)", ".md": None}
    for path in texts():
        text = read(path)
        for old, word in LOCAL.get(path, {}).items():
            text = token({old: word}).sub(word, text)
        after = respelled(text, new, dashed, comments[re.search(r"\.\w+$", path).group(0)])
        if after != text:
            with open(path, "w", encoding="utf-8") as f:
                f.write(after)


main()
