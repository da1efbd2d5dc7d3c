#!/usr/bin/env python3
"""Brings this repository's own definitions and lemmas to the spelling of the installed Rattle.

Run once, at the top, straight after the kit's port.py. In crates/, in clauses, definitions, proofs and edits:
names of two or more words in snake case (`decodeAt` becomes `decode_at`), lemmas with a dash too (`by-case`
becomes `by_case`). A lemma that would have a definition's name gets `_lem`, a field of a record does not. Names of
Rattle's own, of facts that Rattle makes, and types keep theirs.
"""
import glob
import re

TOKEN = re.compile(r"[A-Za-z_ℕ][\w'ℕ]*(?:-[\wℕ'*]+)*")
CAMEL = re.compile(r"(?:[a-z]\w*[a-z0-9])[A-Z]\w*$|[a-z][A-Z]\w*$")
HEAD = re.compile(r"^(\s*)(?:(?:abbrev|unfoldable|pub|private)\s+)*([a-z_][\w'-]*)\s*(?:\{[^}]*\}\s*|\([^)]*\)\s*)*:(?!:)(.*)$")
IMPORT = re.compile(r"use (Rattle\.(\w+)\.[\w.+·'-]*)\.\{([^}]*)\}", re.S)
SPECIAL = {"storeAOf": "store_a_of", "asks2K": "asks_2k", "asks4K": "asks_4k", "n6K": "n_6k"}


def antt_files():
    return sorted(glob.glob("crates/*/specs/**/*.antt", recursive=True) + glob.glob("crates/*/proofs/**/*.antt", recursive=True))


def snake(name):
    if name in SPECIAL:
        return SPECIAL[name]
    return re.sub(r"(?<=[a-z0-9])([A-Z])", lambda m: "_" + m.group(1).lower(), name)


def is_camel(name):
    return "-" not in name and "_" not in name and CAMEL.match(name) and not re.match(r"x[0-9A-F]+$|b'", name)


def respelled(text, turn):
    return TOKEN.sub(lambda m: turn(m.group(0), text, m.start()), text)


def camel_turn(word, text, at):
    if at and text[at - 1] in "'\\0123456789":
        return word
    return "-".join(snake(w) if is_camel(w) else w for w in word.split("-"))


def own_dashed(texts):
    """For each file the dashed names that it defines, goals that Rattle names apart."""
    found = {}
    for f, text in texts.items():
        names = set()
        for line in text.split("\n"):
            m = HEAD.match(line)
            if m and "-" in m.group(2) and not m.group(2).endswith("-spec") and not re.match(r"\s*(tie|goal)\.(?!After|Then|Else|Start|At)", m.group(3)):
                names.add(m.group(2))
        found[f] = names
    return found


def module_of(f):
    m = re.match(r"crates/(\w+)/(specs|proofs)/(.*)\.antt$", f)
    return f"Rattle.{m.group(1)}.{m.group(2)}.{m.group(3).replace('/', '.')}"


def main():
    texts = {f: open(f, encoding="utf-8").read() for f in antt_files()}
    defined = set()
    for f, text in texts.items():
        for line in text.split("\n"):
            m = HEAD.match(line)
            if m:
                defined.add(m.group(2))
    camels = {snake(d) for d in defined if is_camel(d)}
    taken = {d for d in defined if "-" not in d and not is_camel(d)}
    dashed = own_dashed(texts)
    every = set().union(*dashed.values())

    stated = set().union(*(names for f, names in dashed.items() if "/specs/" in f))

    def plain(name):
        to = name.replace("-", "_")
        if name in stated:
            return to
        return to + "_lem" if to in camels or to in taken else to

    clash = {d for d in taken if d in camels and any(f"/proofs/" in f and re.search(rf"(?m)^\s*(pub )?{d} :", t) for f, t in texts.items())}
    by_module = {module_of(f): names for f, names in dashed.items()}
    for f, text in texts.items():
        seen = set(dashed[f])
        aliases = set(re.findall(r"use Rattle\.[^\s{}]* as ([\w'-]+)", text))
        for m in IMPORT.finditer(text):
            names = {n.strip().split(" as ")[0] for n in m.group(3).split(",")}
            seen |= names & every if m.group(1) in by_module or m.group(1).startswith("Rattle.") else set()
        clashing = {d for d in clash if "/proofs/" in f and (re.search(rf"(?m)^\s*(pub )?{d} :", text) or re.search(rf"use Rattle\.\w+\.proofs\.[^\n]*\{{[^}}]*\b{d}\b", text))}
        if "/specs/" in f:
            clashing = set()
        lines = []
        for line in text.split("\n"):
            code, dash, said = line, "", ""
            if line.lstrip().startswith("--"):
                code, said = "", line

            def turn(word, whole, at):
                before = whole[:at]
                q = re.search(r"([\w'-]+)\.$", before)
                if word in clashing and not q:
                    return word + "_lem"
                if word in stated:
                    return plain(word)
                if "-" in word and (word in seen and not q or q and q.group(1) in aliases and word in every):
                    return plain(word)
                return camel_turn(word, whole, at)

            lines.append((respelled(code, turn) if code else "") + (respelled(said, camel_turn) if said else ""))
        new = "\n".join(lines)
        if new != text:
            open(f, "w", encoding="utf-8").write(new)
    for f in sorted(glob.glob("crates/*/src/**/*.rt", recursive=True)) + sorted(glob.glob("crates/*/must-fail/*.edit")):
        text = open(f, encoding="utf-8").read()
        parts = re.split(r'(b?"(?:[^"\\]|\\.)*")', text)
        new = "".join(p if i % 2 else respelled(p, camel_turn) for i, p in enumerate(parts))
        if new != text:
            open(f, "w", encoding="utf-8").write(new)
    print("clashes that get _lem:", sorted(clash), sorted(n for n in every if plain(n).endswith("_lem")))


main()
