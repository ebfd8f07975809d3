#!/usr/bin/env python3
"""Spells the names of definitions and lemmas of crates/ in snake case.

usage: tools/spell_names.py        at the top of the repository, once, after port.py

Own names of specs/ and proofs/ that have a dash or an inner capital get `_` in its place: `isBlank`
becomes `is_blank`, `skip-over` becomes `skip_over`, `BAD-OCTAL` becomes `BAD_OCTAL`. Types and modules
keep their capitals. Names that Rattle makes (goals, steps of the code) are left alone, and so are names
of its library. The script stops, and writes nothing, where two names of one file would fall together.
"""
import collections
import glob
import re
import sys

# a field of a record of specs/ and a field of a struct of src/, in one file
APART = ({"textDiffers", "text_differs"}, {"valueDiffers", "value_differs"})
# names that would fall together with another name, and what they are called instead
OTHER = {"other-mark": "other_mark_at"}
OTHER |= {n: n.replace("-", "_") + "_lem" for n in (
    "is-of text-length text-differs value-differs raw-value letter-plain fits-at zero-by is-given"
    " number-text list-room scan-by area-length value-length lower-exponent text-shown"
).split()}

DECLARED = re.compile(r"^(\s*)(?:(?:abbrev|unfoldable|pub|hidden) )*([^\s():{}=;,.]+) :(?: |$)")
RECORD = re.compile(r"^(\s*)(?:pub )?(?:record|data) ")
GOAL = re.compile(r": (?:tie\.(?:Need|invariant|decreases|InvT|MeasureT)\b|\{M : Type 1\} → statement\b)")
TOKEN = re.compile(r'"(?:[^"\\]|\\.)*"|--[^\n]*|[^\s(){}\[\];,."]+|.', re.S)
RUST = re.compile(r'"(?:[^"\\]|\\.)*"|//[^\n]*|[A-Za-z_][\w\'₀-₉-]*|.', re.S)
CAMEL = re.compile(r"(?<![A-Za-z])[a-z][a-z0-9]*(?:[A-Z][a-z0-9]*)+(?![\w-])")


def snake(name):
    if name in OTHER:
        return OTHER[name]
    if not re.search(r"[A-Za-z]", name):
        return name
    if not name[0].isupper():
        name = re.sub(r"([a-z0-9])([A-Z])", lambda m: m[1] + "_" + m[2].lower(), name)
    return re.sub(r"(?<=[\w₀-₉'])-(?=[\w])", "_", name)


def read(path):
    with open(path, encoding="utf-8") as f:
        return f.read()


def declared(text):
    """The names that a file declares, and those of them that are fields of a record."""
    names, fields, inside = set(), set(), None
    for line in text.splitlines():
        if line.strip().startswith("--") or not line.strip():
            continue
        indent = len(line) - len(line.lstrip())
        if inside is not None and indent <= inside:
            inside = None
        m = RECORD.match(line)
        if m:
            inside = len(m[1])
            continue
        m = DECLARED.match(line)
        if m and not GOAL.search(line):
            names.add(m[2])
            if inside is not None:
                fields.add(m[2])
    return names, fields


def imports(text, ghost):
    """(module, name) for each name that a file imports."""
    head = r"ghost use" if ghost else r"use"
    for m in re.finditer(head + r" ([\w.']+)\.\{([^}]*)\}", text):
        for it in m[2].split(","):
            yield m[1], it.strip().split(" as ")[0].strip()


def module(path):
    return "Rattle." + path[len("crates/"):-len(".antt")].replace("/", ".")


def turned(text, table, fields, ghost):
    out, last = [], ""
    for m in (RUST if ghost else TOKEN).finditer(text):
        t = m[0]
        if t.startswith("--") or t.startswith("//"):
            out.append(CAMEL.sub(lambda n: table.get(n[0], n[0]), t))
        elif t.startswith('"'):
            out.append(t)
        elif last == "." and not ghost and t not in fields:
            out.append(t)
        else:
            out.append(table.get(t, t))
        last = t
    return "".join(out)


def main():
    antt = sorted(p for p in glob.glob("crates/*/specs/**/*.antt", recursive=True) + glob.glob("crates/*/proofs/**/*.antt", recursive=True))
    rust = sorted(glob.glob("crates/*/src/**/*.rt", recursive=True))
    texts = {p: read(p) for p in antt + rust}
    own, fields = {}, set()
    for p in antt:
        names, of_records = declared(texts[p])
        own[module(p)] = (p, {n: snake(n) for n in names if snake(n) != n})
        if not p.endswith("/Proof.antt"):
            fields |= {n for n in of_records if snake(n) != n}
    bad, result, count = [], {}, 0
    everywhere = {n: snake(n) for n in fields}
    renamed = dict(everywhere)
    for p in antt + rust:
        table, foreign = dict(everywhere), set()
        for mod, name in imports(texts[p], p.endswith(".rt")):
            if mod in own:
                if name in own[mod][1]:
                    table[name] = own[mod][1][name]
                # a name that a module passes on
                elif snake(name) != name and name not in declared(texts[own[mod][0]])[0]:
                    table[name] = snake(name)
            else:
                foreign.add(name)
        if p.endswith(".antt"):
            table.update(own[module(p)][1])
        for name in foreign & set(table):
            del table[name]
        renamed.update(table)
        new = turned(texts[p], table, fields, p.endswith(".rt"))
        bare = re.sub(r'"(?:[^"\\]|\\.)*"|(?:--|//).*', "", texts[p])
        tokens = set(re.findall(r"(?<![^\s(){}\[\];,\"])[^\s(){}\[\];,.\"]+(?!\.\w)", bare))
        by_new = collections.defaultdict(set)
        for t in tokens:
            by_new[table.get(t, t)].add(t)
        for n, ts in by_new.items():
            if len(ts) > 1 and ts not in APART and not p.endswith(".rt"):
                bad.append(f"{p}: {' and '.join(sorted(ts))} would all be {n}")
        if new != texts[p]:
            result[p] = new
            count += 1
    # edits and documents: names that have one new spelling
    for p in sorted(glob.glob("crates/*/must-fail/*.edit")) + sorted(glob.glob("*.md") + glob.glob("docs/**/*.md", recursive=True)):
        text = read(p)
        new = "\n".join(CAMEL.sub(lambda n: renamed.get(n[0], n[0]), l) for l in text.split("\n"))
        if p.endswith(".edit"):
            new = "\n".join(l if l.startswith("#") else re.sub(r"(?<![\w.-])[A-Za-z][\w']*(?:-[\w']+)+(?![\w-])", lambda n: renamed.get(n[0], n[0]), l) for l in new.split("\n"))
        if new != text:
            result[p] = new
    if bad and "--force" not in sys.argv:
        print("\n".join(bad))
        raise SystemExit(f"{len(bad)} places where names fall together: nothing was written")
    for p, text in result.items():
        with open(p, "w", encoding="utf-8") as f:
            f.write(text)
    print(f"{len(result)} files written, {len(renamed)} names")


main()
