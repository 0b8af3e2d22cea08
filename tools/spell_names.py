#!/usr/bin/env python3
"""Spells the names that the definitions and lemmas of crates/ declare in snake case: isOn and puts-at become is_on and
puts_at. Types and modules keep their capitals; functions, fields and strings of the code keep their names.

usage: tools/spell_names.py          once, at the top of the repository, after the kit's own script
       tools/spell_names.py --edits  the texts of must-fail/*.edit, by the table that the first call wrote
       tools/spell_names.py --pages  the code spans of the pages, by that table; notes of landings stay as they were

Where two names would fall together, the one that is snake case already keeps its name, or else the definition (written
with capitals) gets the plain name; the other one gets _law behind it. The table stands in tools/spelling.tsv.
"""

import collections
import glob
import os
import re
import sys

NAME = r'[^\s(){}.;,@"«»]+'
DECLARED = re.compile(rf"^ *(?:(?:abbrev|unfoldable|pub) )*({NAME}(?: {NAME})*?)(?: \{{[^{{}}\n]*\}})* :(?=\s|$)", re.M)
FUNCTION_S = re.compile(r"^use Rattle\S+\.(Statement\.\{statement\}|Tie\b|Tie\.|Goals as goal|Given as goal)", re.M)
STRING = re.compile(r'b?"(?:[^"\\\n]|\\.)*"')
WORD = re.compile(NAME)
# a word of prose ends at more signs
PROSE = re.compile(r"[\w'-]+")
TABLE = os.path.join(os.path.dirname(os.path.abspath(__file__)), "spelling.tsv")


def snake(name):
    return re.sub(r"(?<=[a-z0-9'])[A-Z]", lambda m: "_" + m[0].lower(), name).replace("-", "_")


def antt_files():
    for kind in ("specs", "proofs"):
        yield from sorted(glob.glob(f"crates/*/{kind}/**/*.antt", recursive=True))


def declared():
    names = set()
    for path in antt_files():
        with open(path, encoding="utf-8") as f:
            text = f.read()
        # what a function's own proof declares is named by the check
        if FUNCTION_S.search(text):
            continue
        for m in DECLARED.finditer(text):
            names.update(n for n in m[1].split() if re.fullmatch(r"[a-z][\w'-]*", n))
    return names


def table():
    """Each declared name that changes, with its new spelling."""
    names = declared()
    together = collections.defaultdict(list)
    for n in sorted(names):
        together[snake(n)].append(n)
    rows = {}
    for new, old in together.items():
        first = next((n for n in old if re.search("[A-Z]", n)), next((n for n in old if n == new), old[0]))
        for n in old:
            to = new if n == first else new + "_law"
            if to != n:
                rows[n] = to
    return rows


def turned(text, rows):
    """The text outside strings, by words; a module's path stays."""
    path = re.match(r" *use Rattle[^{\s]*", text)
    if path:
        return path[0] + turned(" " + text[path.end() :], rows)[1:]
    parts, at = [], 0
    for m in STRING.finditer(text):
        parts += [WORD.sub(lambda w: one(w[0], rows), text[at : m.start()]), m[0]]
        at = m.end()
    parts.append(WORD.sub(lambda w: one(w[0], rows), text[at:]))
    return "".join(parts)


def one(word, rows):
    if word in rows:
        return rows[word]
    if word[0] in "`'" or word[-1] in "`':?!|":
        return PROSE.sub(lambda w: rows.get(w[0], w[0]), word)
    return word


def line_turned(line, rows, comment):
    """A comment's bare words with a dash are English; the rest of a line is code."""
    code, sign, prose = line.partition(comment)
    if sign and code.count('"') % 2 == 0 and (not code or code[-1].isspace()):
        plain = {o: n for o, n in rows.items() if "-" not in o and re.search("[A-Z]", o)}
        quoted = re.sub(r"`[^`\n]*`", lambda m: PROSE.sub(lambda w: rows.get(w[0], w[0]), m[0]), prose)
        return turned(code, rows) + sign + turned(quoted, plain)
    return turned(line, rows)


def write(path, turn):
    with open(path, encoding="utf-8") as f:
        old = f.read()
    new = "\n".join(turn(line) for line in old.split("\n"))
    if new != old:
        with open(path, "w", encoding="utf-8") as f:
            f.write(new)
        return 1
    return 0


def main(args):
    if args in (["--edits"], ["--pages"]):
        with open(TABLE, encoding="utf-8") as f:
            rows = dict(line.rstrip("\n").split("\t") for line in f)
    if args == ["--pages"]:
        # What is in snake case is a function's name there, too. The kit's script spelled some names before this one did.
        rows = {o: n for o, n in rows.items() if re.search("[A-Z-]", o)}
        names = declared()
        word = lambda w: rows.get(w, snake(w) if re.match("[a-z]", w) and snake(w) in names else w)
        span = lambda m: PROSE.sub(lambda w: word(w[0]), m[0])
        pages = ["README.md", "CONTRIBUTING.md", *sorted(glob.glob("docs/*.md"))]
        n = sum(write(path, lambda line: re.sub("`[^`]*`", span, line)) for path in pages)
        print(f"{n} pages changed")
        return 0
    if args == ["--edits"]:
        n = 0
        for path in sorted(glob.glob("crates/*/must-fail/*.edit")):
            n += write(path, lambda line: line_turned(line, rows, "--") if re.match("(old|new):", line) else line)
        print(f"{n} edits changed")
        return 0
    rows = table()
    with open(TABLE, "w", encoding="utf-8") as f:
        f.writelines(f"{o}\t{n}\n" for o, n in sorted(rows.items()))
    n = sum(write(path, lambda line: line_turned(line, rows, "--")) for path in antt_files())
    # In the code a dash is a minus or English, and what is in snake case is a function's name; clauses name no lemma.
    plain = {o: new for o, new in rows.items() if re.search("[A-Z]", o)}
    for path in sorted(glob.glob("crates/*/src/**/*.rt", recursive=True)):
        n += write(path, lambda line: line_turned(line, plain, "//"))
    print(f"{len(rows)} names, {n} files changed")
    return 0


if __name__ == "__main__":
    raise SystemExit(main(sys.argv[1:]))
