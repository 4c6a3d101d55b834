#!/usr/bin/env python3
"""Spells the repository's own definitions and lemmas as today's Rattle does: words in snake case, types and modules in camel case.

usage: python3 tools/respell.py [--list]      at the top of the repository, once, after /opt/rattle/port/port.py

Each name that specs/ or proofs/ declare in camel case with a small first letter, or with dashes, is written with underscores: sumBelow as
sum_below, plant-is-file as plant_is_file. Names of goals, which Rattle makes, keep their spelling, and so does all of src/ but what clauses cite.
--list prints the table and changes nothing. The script stops, and writes nothing, where two names would fall together.
"""

import glob
import os
import re
import sys

# A word of antt: letters, digits, _, ', - and the marks of subscripts and primes.
WORD = re.compile(r"(?<![\w'′-])[A-Za-z_μΛ][\w'′]*(?:-[\w'′]+)*(?![\w'′-])")
# A declaration at the left margin or in a section, or a field of a record.
DECLARED = re.compile(r"^ *(?:(?:pub|abbrev|unfoldable)\s+)*([A-Za-z_][\w'′-]*)\s+:\s+(.*)$", re.M)
# Names that Rattle asks for in a proof file: their type is a member of the generated module.
GENERATED = re.compile(r"^(?:tie|goal|lts)\.")
# Names of which another, in camel case, has the same words. A field of a record may have the name of another record's field; so may a field
# whose file does not say the definition of that name. A lemma of its definition's name gets `_lem`, as in Rattle's library.
TOGETHER = set("""backlog-cost changeover-cents changeover-minutes greatest-storage inventory-cost least-storage shortest-run shut-before
    week-minutes opening-backlog opening-inventory kind-four kind-one contents-length plan-again""".split())
# Lemmas that port.py spells already, and whose name a definition takes here. A function of src/ may have the same name, so that only
# the files that declare or import the lemma are turned.
TAKEN = ("first_below", "position_at", "position_from", "product_at")
# A lemma of the library, which one file declares again.
LIBRARY = ("or-true",)
# Words of the generated modules, which proofs cite as fields.
KEPT = re.compile(r"^(?:invariant|decreases|returns|loop|overflow|enum|if|in|then|else|branch)-")


def antt_files():
    return sorted(p for p in glob.glob("crates/*/specs/**/*.antt", recursive=True) + glob.glob("crates/*/proofs/**/*.antt", recursive=True) if "/out/" not in p)


def read(path):
    with open(path, encoding="utf-8") as f:
        return f.read()


def snake(name):
    parts = []
    for piece in name.split("-"):
        parts.append(re.sub(r"(?<=[a-z0-9])([A-Z])", lambda m: "_" + m.group(1).lower(), piece) if piece[:1].islower() else piece)
    return "_".join(parts)


def table():
    declared, generated, said = {}, set(), set()
    for path in antt_files():
        text = read(path)
        said.update(WORD.findall(text))
        for name, kind in DECLARED.findall(text):
            if GENERATED.match(kind):
                generated.add(name)
            else:
                declared.setdefault(name, set()).add(path)
    names = {}
    for name in sorted(declared):
        if name in generated or name in LIBRARY or not name[:1].islower():
            continue
        own = name.endswith("-spec") or KEPT.match(name)
        if own and all("/proofs/" in p and p.endswith("/Proof.antt") for p in declared[name]):
            continue
        to = snake(name)
        if to != name:
            names[name] = to
    definitions = {to for name, to in names.items() if "-" not in name} | {name for name in declared if "-" not in name}
    for name, to in names.items():
        if "-" in name and to in definitions and name not in TOGETHER:
            names[name] = to + "_lem"
    back = {}
    for name, to in names.items():
        if name not in TOGETHER:
            back.setdefault(to, []).append(name)
    clash = [f"{' and '.join(froms)} would be {to}" for to, froms in sorted(back.items()) if len(froms) > 1]
    clash += [f"{froms[0]} would be {to}, which is declared in {sorted(declared[to])[0]}" for to, froms in sorted(back.items()) if to in declared and to not in TAKEN]
    return names, clash, {to for to in back if to in said and to not in declared}


def respelled(text, names):
    return WORD.sub(lambda m: names.get(m.group(0), m.group(0)), text)


def lemmas_apart(text):
    """The lemmas of TAKEN in a file that declares or imports them; a path and a field keep their names."""
    for name in TAKEN:
        word = rf"(?<![\w'.-]){name}(?![\w'.-])"
        if re.search(rf"(?m)^ *(?:pub )?{name} :|^use Rattle\.mathematics\.proofs\.\w+\.\{{[^}}]*{word}", text):
            text = re.sub(word, name + "_lem", text)
    return text


def everywhere(names):
    """For pages and edits, which port.py leaves as they were: the older spelling of a name that it has turned, too."""
    declared = {name for path in antt_files() for name, _ in DECLARED.findall(read(path))}

    def turned(word):
        to = names.get(word)
        if to is None and word[:1].islower() and snake(word) != word and snake(word) in declared:
            to = snake(word) + "_lem" if snake(word) in TAKEN else snake(word)
        return to or word

    return turned


def in_page(text, turned):
    """A page: only what stands between backticks."""
    return re.sub(r"`[^`\n]+`", lambda m: WORD.sub(lambda w: turned(w.group(0)), m.group(0)), text)


def main(argv):
    names, clash, met = table()
    if argv == ["--list"]:
        for name, to in sorted(names.items()):
            print(name, to, "(said already)" if to in met else "")
    if clash:
        print("\n".join(clash), file=sys.stderr)
        return 1
    if argv:
        return 0
    changed = 0
    turned = everywhere(names)
    code = antt_files() + sorted(glob.glob("crates/*/src/**/*.rt", recursive=True))
    edits = sorted(glob.glob("crates/*/must-fail/*.edit"))
    # docs/TEXT.md names words of the planner's text, which keep their dashes.
    pages = sorted(set(glob.glob("*.md") + glob.glob("docs/**/*.md", recursive=True)) - {"docs/TEXT.md"})
    for path in code + edits + pages:
        before = read(path)
        if path.endswith(".md"):
            after = in_page(before, turned)
        elif path.endswith(".edit"):
            after = WORD.sub(lambda w: turned(w.group(0)), before)
        else:
            after = respelled(lemmas_apart(before) if path.endswith(".antt") else before, names)
        if after != before:
            with open(path, "w", encoding="utf-8") as f:
                f.write(after)
            changed += 1
    print(f"{len(names)} names, {changed} files")
    return 0


if __name__ == "__main__":
    raise SystemExit(main(sys.argv[1:]))
