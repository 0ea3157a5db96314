#!/usr/bin/env python3
"""Spells the definitions and lemmas of this repository as its Rattle has them: words in snake case, types in camel case.

usage: tools/snake_names.py [--check]      at the top, once, right after the kit's port.py

A name that crates/*/specs and crates/*/proofs declare is turned wherever it stands in code: dashes become underscores, a camel-case word gets
underscores, a type with a dash becomes one camel-case word. Comments turn where they quote a name, or say one that has a dash or an inner capital.
Edits turn alike. What keeps its spelling: the published symbols (KEEP), functions, structs and fields of src/, exported names, strings, inputs, outputs, and every label
that Rattle makes. --check changes nothing, and lists the names and where one would meet another.
"""
import os
import re
import sys

KEEP = set("A B K0 Dw Ds Dr Dss Kw Ks Kr Aw As Ar Bw Bs".split())
OWN = {"BF": "b_f", "of-≤F": "of_≤F", "to-≤F": "to_≤F", "is-nan": "is_nan_lem", "wrote_count": "wrote_count_lem"}
WORD = r"[^\s(){}.;,@\"«»|:]+"
DECLARED = re.compile(r"^\s*(?:(?:unfoldable|abbrev|opaque|private|pub|instance)\s+)*(" + WORD + r")(?:\s+[({][^=]*?[)}])*\s:(?!=)", re.M)
TYPE = re.compile(r"^\s*(?:pub\s+)?(?:record|data)\s+(" + WORD + r")", re.M)
ITEM = re.compile(r"\b(?:const|static|struct|enum|type|trait|fn|mod)\s+(\w+)|\b(\w+):(?!:)")
TOKEN = re.compile(r"[^\s(){}.;,@\"«»]+")


def files(ends):
    for folder, dirs, names in os.walk("crates"):
        dirs[:] = sorted(d for d in dirs if d != "out")
        for n in sorted(names):
            if n.endswith(ends):
                yield os.path.join(folder, n)


def of_function(path):
    """Whether a file is a function's own proof, most of whose names Rattle makes."""
    parts = path.split("/")
    return parts[2] == "proofs" and len(parts) > 4


def snake(name):
    if name in OWN:
        return OWN[name]
    out = re.sub(r"(?<=[a-z0-9'])[A-Z]+", lambda m: "_" + m[0].lower(), name)
    if "-" in name or out != name:
        out = out[:1].lower() + out[1:]
        out = re.sub(r"[A-Z]", lambda m: m[0].lower(), out)
    return out.replace("-", "_")


def camel(name):
    return "".join(p[:1].upper() + p[1:] for p in name.split("-"))


def is_operator(n):
    return "◌" in n or not re.search(r"[^\W\d_]", n)


def declared():
    values, types = {}, {}
    for p in files(".antt"):
        with open(p, encoding="utf-8") as f:
            text = re.sub(r"--[^\n]*", "", f.read())
        if of_function(p):
            for m in re.finditer(r"^(?:abbrev\s+|unfoldable\s+)*(" + WORD + r") :(?!\s*tie\.)", text, re.M):
                if not m[1].startswith(("invariant-", "decreases-")) and not m[1].endswith(("-spec", "_spec")):
                    values.setdefault(m[1], set()).add(p)
            continue
        for m in TYPE.finditer(text):
            types.setdefault(m[1], set()).add(p)
        for m in DECLARED.finditer(text):
            values.setdefault(m[1], set()).add(p)
    return values, types


def table():
    values, types = declared()
    source = set()
    for p in files(".rt"):
        with open(p, encoding="utf-8") as f:
            text = f.read()
        for m in ITEM.finditer(text):
            source.add(m[1] or m[2])
    rows = {n: to for n, to in OWN.items() if n in values}
    for n in values:
        if n in rows:
            continue
        if n in KEEP or n in source or is_operator(n) or n[:1].isupper() and "-" not in n and n not in OWN:
            continue
        to = snake(n)
        if to != n:
            rows[n] = to
    # a lemma that would have the name of what it is about
    count = {}
    for n, to in rows.items():
        count.setdefault(to, []).append(n)
    for to, names in count.items():
        if len(names) > 1:
            for n in names:
                if "-" in n:
                    rows[n] = to + "_lem"
    for n in types:
        if "-" in n:
            rows[n] = camel(n)
    return rows


def turn_code(text, rows, path):
    """Code and clauses: whole tokens. Behind 'tie.' and in a path that begins at c. a label is Rattle's."""
    fn = of_function(path)

    def one(m):
        w = m[0]
        if w not in rows:
            return w
        before = text[: m.start()]
        if fn and before.endswith("."):
            head = re.search(r"([^\s(){};,]+)\.$", before)
            first = head[1].split(".")[0] if head else ""
            if first in ("tie", "goal") or head and re.match(r"(c|s|b|i|l|t|a)$", first) and w not in FIELDS:
                return w
        return rows[w]

    return TOKEN.sub(one, text)


FIELDS = set()


def turn(path, rows):
    with open(path, encoding="utf-8") as f:
        text = f.read()
    if path.endswith(".edit"):
        new = "\n".join(turn_code(line, rows, path) if re.match(r"(old|new): ", line) and (clause_line(line) or "ghost use" in line or "antt" in text) else line for line in text.split("\n"))
    elif path.endswith(".antt"):
        out = []
        for line in text.split("\n"):
            code, dash, note = line.partition("--") if re.search(r"(^|\s)--", line) else (line, "", "")
            if dash and not re.search(r"(^|\s)$", code):
                code, dash, note = line, "", ""
            out.append(turn_code(code, rows, path) + dash + turn_note(note, rows))
        new = "\n".join(out)
    else:
        new = []
        for line in text.split("\n"):
            m = re.match(r"(\s*(?:ghost\s+use\b|requires\b|ensures\b|//)|.*\bghost\b)", line)
            if m and line.lstrip().startswith("//"):
                new.append(turn_note(line, rows))
            elif m or clause_line(line):
                new.append(turn_code(line, rows, path))
            else:
                new.append(line)
        new = "\n".join(new)
    if new != text:
        with open(path, "w", encoding="utf-8") as f:
            f.write(new)
    return new != text


def clause_line(line):
    return bool(re.search(r"[≡≤→λℕℤ◌]", line))


def turn_note(note, rows):
    def one(m):
        w = m[0]
        return rows[w] if w in rows and (re.search(r"[-]", w) or re.search(r"[a-z][A-Z]", w)) else w

    def quoted(m):
        return "`" + TOKEN.sub(lambda k: rows.get(k[0], k[0]), m[1]) + "`"

    note = re.sub(r"`([^`\n]*)`", quoted, note)
    return re.sub(r"(?<![\w`.-])[a-z0-9A-Zα-ω]+(?:[a-z][A-Z]\w*|-[\w-]*\w)", lambda m: rows[m[0]] if m[0] in rows and re.search(r"[a-z][A-Z]", m[0]) else m[0], note)


def main():
    rows = table()
    if "--check" in sys.argv:
        used = set()
        for p in files((".antt", ".rt")):
            with open(p, encoding="utf-8") as f:
                used |= set(TOKEN.findall(f.read()))
        by = {}
        for n, t in rows.items():
            by.setdefault(t, []).append(n)
        for n, t in sorted(rows.items()):
            print("%-40s %s%s%s" % (n, t, "   STANDS" if t in used else "", "   TWICE " + " ".join(by[t]) if len(by[t]) > 1 else ""))
        return
    n = sum(turn(p, rows) for p in files((".antt", ".rt", ".edit")))
    print("snake_names: %d names, %d files" % (len(rows), n))


if __name__ == "__main__":
    main()
