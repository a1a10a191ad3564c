#!/usr/bin/env python3
"""Brings this repository's own names to the spelling of today's Rattle: definitions, lemmas, fields and constructors in snake case.

usage: python3 tools/snake_names.py [--dry]     at the top, once, after port.py

A name that begins with a lower case letter and has a capital inside (`setRefcount`) or a dash (`goes-down`) becomes snake case
(`set_refcount`, `goes_down`). A dash stays where it joins the names of two definitions (`length-set_refcount`). Types, facts and modules
(`Live`) keep their names, and so do names of the library, names that Rattle makes, and all of src/ but its clauses. TAKEN has the names that
would fall together with another, and what they are called.
"""
import os
import re
import sys

KIT = "/opt/rattle/rattle"
# two names that would fall together, or with a field, a parameter or a constant of src/
TAKEN = {"freeCount": "count_of_free", "freePlace": "free_record"}
TOKEN = re.compile(r"[^\s(){}\[\];,.:|\"«»λ→×≡]+")
HEAD = re.compile(r"^\s*(?:pub\s+)?(?:(?:abbrev|unfoldable)\s+)?(?:pub\s+)?([^\s(){}:;,.|«»]+)(?:\s+\{ℓ\w*\})*\s*:(?=\s)", re.M)
CONS = re.compile(r"^\s*\|\s*(?:pub\s+)?([^\s(){}:;,.|«»]+)\s*:(?=\s)", re.M)
BIND = re.compile(r"[({]((?:[^\s(){}:;,.|«»]+\s+)*[^\s(){}:;,.|«»]+)\s*:(?=\s)")
LAM = re.compile(r"λ\s*((?:[^\s(){}:;,.|«»]+\s+)*[^\s(){}:;,.|«»]+)\.")
LET = re.compile(r"\blet\s+([^\s(){}:;,.|«»=]+)\s*[:=](?=\s)")
DEFINED = re.compile(r"^\s*(?:abbrev|unfoldable)\s+pub\s+([^\s(){}:;,.|«»]+)(?:\s+\{ℓ\w*\})*\s*:(?=\s)", re.M)
USE = re.compile(r"^\s*(?:pub\s+)?(?:ghost\s+)?use\s+([^\s{;]+?)\.\{([^}]*)\}", re.M)


def walk(top, ends):
    for folder, dirs, files in os.walk(top):
        dirs[:] = sorted(d for d in dirs if d not in ("out", ".git", "target"))
        for f in sorted(files):
            if f.endswith(ends):
                yield os.path.join(folder, f)


def read(p):
    with open(p, encoding="utf-8") as f:
        return f.read()


def code_of(text):
    return re.sub(r"--(?=\s|-).*", "", text)


def candidate(n):
    if not n or not n[0].isalpha() or not n[0].islower() or not n.isascii() and False:
        return False
    return "-" in n or re.search(r"[a-z0-9'][A-Z]", n) is not None


def snake(part):
    return re.sub(r"(?<=[a-z0-9'])([A-Z])", lambda m: "_" + m.group(1).lower(), part)


def main():
    dry = "--dry" in sys.argv
    lemma_files, proof_files, sources = [], [], []
    for p in walk("crates", (".antt",)):
        rel = p.split(os.sep)[2:]
        if rel[0] == "specs" or (rel[0] == "proofs" and len(rel) == 2):
            lemma_files.append(p)
        else:
            proof_files.append(p)
    sources = list(walk("crates", (".rt",)))
    # definitions, and what is bound in lemma files
    public, local = set(), set()
    for p in lemma_files:
        t = code_of(read(p))
        for r in (HEAD, CONS):
            public.update(m.group(1) for m in r.finditer(t))
        for r in (BIND, LAM):
            for m in r.finditer(t):
                local.update(m.group(1).split())
        local.update(m.group(1) for m in LET.finditer(t))
    # the library's names: all that is imported from outside this repository
    crates = set(os.listdir("crates"))
    kit = set()
    for p in lemma_files + proof_files + sources:
        for m in USE.finditer(read(p)):
            path = m.group(1).split(".")
            if path[0] == "Rattle" and path[1] in crates:
                continue
            for n in m.group(2).split(","):
                kit.update(x for x in n.replace(" as ", " ").split())
    # the definitions, whose names a dash may join
    functions = {"length", "set", "take", "drop", "map", "replicate", "get_or", "append", "filter"}
    for p in lemma_files:
        for m in DEFINED.finditer(code_of(read(p))):
            n = m.group(1)
            if len(n) > 2 and "-" not in n:
                functions.add(snake(n))

    def turned(n):
        if n in TAKEN:
            return TAKEN[n]
        parts = [snake(x) for x in n.split("-")]
        if len(parts) == 1:
            return parts[0]
        out = parts[0]
        for i, x in enumerate(parts[1:], 1):
            last = parts[i - 1]
            # a dash joins two names of definitions
            out += ("-" if last in functions and x in functions else "_") + x
        return out

    names = {n for n in (public | local) if candidate(n) and n not in kit}
    table = {n: turned(n) for n in names}
    table = {n: t for n, t in table.items() if n != t}
    # names that fall together: the definition takes the name, the lemma gets _lem
    for t in sorted(set(table.values())):
        group = sorted(n for n in table if table[n] == t)
        camel = [n for n in group if "-" not in n]
        for n in group:
            if n != t and "-" in n and (camel or t in kit or t in public or len([x for x in group if "-" in x]) > 1):
                table[n] = t + "_lem"
    # a lemma that has a definition's new name already
    declared = {}
    for p in lemma_files:
        for r in (HEAD, CONS):
            for m in r.finditer(code_of(read(p))):
                declared.setdefault(m.group(1), set()).add(p)
    clashes = {t: declared[t] for n, t in table.items() if t in declared and "-" not in n}
    bad = {}
    for n, t in table.items():
        bad.setdefault(t, set()).add(n)
    bad = {t: s | ({t} if t in kit else set()) for t, s in bad.items() if len(s) > 1 or t in kit}
    # against src/: fields, parameters, constants, locals of a source that imports the name
    src = {}
    for p in sources:
        t = read(p)
        imported = set()
        for m in USE.finditer(t):
            imported.update(x.strip().split(" as ")[-1] for x in m.group(2).split(","))
        rust = set(re.findall(r"\b([a-z_][a-z0-9_]*)\s*:", re.sub(r"^ghost use.*$", "", t, flags=re.M)))
        for n in imported:
            if table.get(n, n) in rust and n in table:
                src.setdefault(table[n], set()).add((n, p))
    print(len(public), "names of definitions,", len(table), "to turn")
    for t in sorted(bad):
        print("together:", t, "<-", sorted(bad[t]), "(kit)" if t in kit else "")
    for t in sorted(src):
        print("source:", t, sorted(src[t]))
    if dry:
        return
    for t, files in sorted(clashes.items()):
        old = re.compile(r"(?<![^\s(){}\[\];,:|\"«»λ→×≡=])" + re.escape(t) + r"(?![^\s(){}\[\];,.:|\"«»→×≡])")
        for p in lemma_files + proof_files:
            body = read(p)
            whole = p in files
            crate = p.split(os.sep)[1]
            for f in files:
                rel = f[:-len(".antt")].split(os.sep)
                whole = whole or re.search(r"use Rattle\." + ".".join(rel[1:]) + r"\.\{[^}]*(?<![\w.'-])" + re.escape(t) + r"(?![\w'-])", body) is not None
            if whole:
                with open(p, "w", encoding="utf-8") as f:
                    f.write(old.sub(t + "_lem", body))
                print("lemma", t, "in", p)
    word = re.compile(r"(?<![^\s(){}\[\];,.:|\"«»λ→×≡=])(" + "|".join(sorted(map(re.escape, table), key=len, reverse=True)) + r")(?![^\s(){}\[\];,.:|\"«»→×≡])")
    shared = {n: t for n, t in table.items() if n in public}
    swap = lambda names: (lambda m: names.get(m.group(1), m.group(1)))
    turned_files = 0
    for p in lemma_files + proof_files + sources:
        t = read(p)
        names = table if p in set(lemma_files) else shared
        lines = []
        for line in t.split("\n"):
            if p.endswith(".rt"):
                k = line.find("//")
                body, note = (line, "") if k < 0 else (line[:k], line[k:])
                if not (re.match(r"\s*(ghost use|requires|ensures|ghost\b)", body) or clause):
                    pass
                body = word.sub(swap(names), body)
            else:
                m = re.search(r"--(?=\s|-)", line)
                k = m.start() if m else -1
                body, note = (line, "") if k < 0 else (line[:k], line[k:])
                body = word.sub(swap(names), body)
            note = word.sub(lambda m: m.group(1) if "-" in m.group(1) else names.get(m.group(1), m.group(1)), note)
            lines.append(body + note)
        new = "\n".join(lines)
        if new != t:
            turned_files += 1
            with open(p, "w", encoding="utf-8") as f:
                f.write(new)
    print(turned_files, "files turned")


clause = True
main()
