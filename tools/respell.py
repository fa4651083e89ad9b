#!/usr/bin/env python3
"""Turns the repository's own definitions, lemmas and record fields to the spelling of today's Rattle: words in snake case, types and modules in camel case.

usage: python3 tools/respell.py [--list]      at the top of a checkout, right after /opt/rattle/port/port.py
       python3 tools/respell.py --modules     after that: the lemmas that stand indented, inside a `module _` or a `where`, whose names get `_` for each dash

A word in camel case that begins small, as `weightAt`, becomes `weight_at`, wherever it stands in an .antt file, in a ghost part of an .rt file, in a must-fail edit or in backquotes of a page.
In the name of a lemma a dash stays where it joins the names of two definitions, as in `codeword-xor`; any other dash becomes `_`. A record's field has no dash.
Names that Rattle makes (goals, invariants), names of src/ and of the library, strings and outputs stay. A name whose new spelling another name has gets the spelling of FIXED.
"""

import os
import re
import sys

# Where the rule would give two things one name, or a definition the name of a function beside it: the spelling that is taken instead.
FIXED = {
    # beside a function of src/ of that name
    "decimalOf": "decimal_of_lem",
    "firstOdd": "first_odd_lem",
    "isBinary": "is_binary_lem",
    "isDecimal": "is_decimal_lem",
    "keywordOf": "keyword_of_lem",
    "pile-count": "pile_count_lem",
    "readCard": "read_card_lem",
    "readRows": "read_rows_lem",
    "readSection": "read_section_lem",
    "readSections": "read_sections_lem",
    "readText": "read_text_lem",
    "wordLength": "word_length_lem",
    "check-samples": "check_samples_lem",
    # beside a method of that name
    "sectionRows": "max_section_rows",
    # beside a definition of that name
    "is-decimal": "digit_is_decimal",
    "length-line": "length_line-append",
    "length-line-length": "length-length_line",
    "line-length": "length-row_line",
    "lines-say": "lines_say-read",
    "row-added": "row_added_ok",
    "row-line": "row_line-append",
    "text_says": "text_says-read",
    # a dash before a name that only a later crate defines
    "block-front": "block-front",
    "column-step": "column-step",
    "counted-front": "counted-front",
    "few-column": "few-column",
    "keeps-told": "keeps-told",
    "summed-front": "summed-front",
    "told-verdict": "told-verdict",
    "totalled-front": "totalled-front",
}

# Names of the library that a lemma's name may join by a dash.
LIBRARY = set("sum sum_by drop take append length set map filter reverse xor and or add mul min max pow mod div neg count fold".split())

IDENT = re.compile(r"(?<![\w'◌·])[A-Za-z_][\w']*(?:-[A-Za-z0-9_'][\w']*)*")
DECLARED = re.compile(r"^(?:(?:abbrev|unfoldable|pub|record|data|axiom)\s+)*([A-Za-z_][\w']*(?:-[\w']+)*)\s*(?:[:({]|where)")
FIELD = re.compile(r"^\s+(?:pub )?([A-Za-z_][\w']*(?:-[\w']+)*)\s*:\s")


def snake(word):
    """`weightAt` as `weight_at`; a word that begins large is a type or a fact and stays."""
    if not word[:1].islower():
        return word
    return re.sub(r"(?<=[a-z0-9])([A-Z])", lambda m: "_" + m.group(1).lower(), word)


def files(root, ends):
    for folder, dirs, names in os.walk(os.path.join(root, "crates")):
        dirs[:] = sorted(d for d in dirs if d not in ("out", ".git"))
        for name in sorted(names):
            if name.endswith(ends):
                yield os.path.join(folder, name)


def read(path):
    with open(path, encoding="utf-8") as f:
        return f.read()


def declared(root):
    """The names that specs/ and proofs/ declare, and those of records' fields; a goal's answer is named by Rattle and is left out."""
    names, fields = set(), set()
    for path in files(root, ".antt"):
        in_record = False
        for line in read(path).split("\n"):
            if "goal." in line or line.startswith(("use ", "pub use ", "mod ", "pub mod ", "unfolding ")):
                in_record = False
                continue
            m = DECLARED.match(line)
            if m:
                names.add(m.group(1))
                in_record = re.match(r"(?:pub )?record ", line) is not None
                continue
            m = FIELD.match(line)
            if m and in_record:
                fields.add(m.group(1))
    return names, fields


def lemma(name, defined):
    """The dash after the first part stays where that part and the rest's first part are names of definitions."""
    parts = [snake(p) for p in name.split("-")]
    whole = parts[0]
    for part in parts[1:]:
        joins = "-" not in whole and whole in defined and part in defined
        whole += ("-" if joins else "_") + part
    return whole


def spelling(root):
    names, fields = declared(root)
    plain = {snake(n) for n in names if "-" not in n} | LIBRARY
    to = {}
    for n in names:
        if "-" in n:
            to[n] = lemma(n, plain)
    for n in fields:
        if "-" in n:
            to[n] = "_".join(snake(p) for p in n.split("-"))
    for path in files(root, ".antt"):
        for m in IDENT.finditer(without_uses(read(path))):
            w = m.group(0)
            if "-" not in w and w[0].islower() and snake(w) != w:
                to[w] = snake(w)
    to.update(FIXED)
    return {a: b for a, b in to.items() if a != b}


def indented(root):
    """The lemmas and local facts that stand indented: their dashes become `_`. A name behind a dot is Rattle's or a field's and stays."""
    names = set()
    for path in files(root, ".antt"):
        for line in read(path).split("\n"):
            m = FIELD.match(line)
            if m and "-" in m.group(1) and "goal." not in line:
                names.add(m.group(1))
    return {n: n.replace("-", "_") for n in names}


def turned_inside(text, to):
    return re.sub(r"(?<!\.)" + IDENT.pattern, lambda m: to.get(m.group(0), m.group(0)), text)


def without_uses(text):
    """A file without the lines that import from the library and the logic, whose words are not ours."""
    return "\n".join(l for l in text.split("\n") if not re.match(r"(pub )?use (Rattle\.std|Prim|lib|native|mathlib|borrow|denote)\b", l))


def turned(text, to):
    return IDENT.sub(lambda m: to.get(m.group(0), m.group(0)), text)


def main(argv):
    root = os.getcwd()
    if "--modules" in argv:
        to = indented(root)
        for path in files(root, ".antt"):
            old = read(path)
            new = turned_inside(old, to)
            if new != old:
                with open(path, "w", encoding="utf-8") as f:
                    f.write(new)
        print(f"respell: {len(to)} names")
        return 0
    to = spelling(root)
    if "--list" in argv:
        for a in sorted(to):
            print(a, to[a])
        return 0
    for path in files(root, (".antt", ".rt", ".edit")):
        old = read(path)
        new = turned(old, to)
        if new != old:
            with open(path, "w", encoding="utf-8") as f:
                f.write(new)
    pages = [os.path.join(root, "README.md")] + [os.path.join(root, "docs", n) for n in sorted(os.listdir(os.path.join(root, "docs"))) if n.endswith(".md")]
    for path in pages:
        old = read(path)
        new = re.sub(r"`[^`\n]+`", lambda m: turned(m.group(0), to), old)
        if new != old:
            with open(path, "w", encoding="utf-8") as f:
                f.write(new)
    print(f"respell: {len(to)} names")
    return 0


if __name__ == "__main__":
    raise SystemExit(main(sys.argv[1:]))
