#!/usr/bin/env python3
"""Respells the repository's own definitions and lemmas as today's Rattle spells names: words in snake case, types in upper camel case.

usage: python3 tools/respell.py           at the top of the repository, once, after the kit's port.py
       python3 tools/respell.py --list    prints the old and the new names, and changes nothing

A name is taken from where specs/ and proofs/ declare it; what Rattle makes (goals, steps) and what std exports keep their names.
Functions of src/, strings, inputs and outputs keep their names too. In .rt files only clauses and ghost lines are touched, and
backquoted words of comments and documents.
"""

import os
import re
import sys

NAME = r"[^\s(){}\[\],;.«»\"@⌜⌝|:`\\]+"
TOKEN = re.compile(NAME)
DECLARED = re.compile(r"^(\s*)((?:abbrev |unfoldable |pub |data |record |mutual |where )*)(" + NAME + r")(?: \(.*?\)| \{.*?\})* : (.*)$")
MADE = re.compile(r"^(goal|need)\.|^Rattle\.\S*\.Goals\b")
# where two names would fall together, or one would hide a function of src/ or a name of std, the name is given here
CHOSEN = {"is-durable": "is_durable_lem", "refusal-end": "refusal_end_lem", "answer-to": "answer_to_lem"}


def files(root):
    for folder, dirs, names in os.walk(os.path.join(root, "crates")):
        dirs[:] = sorted(d for d in dirs if d not in ("out", "target"))
        for name in sorted(names):
            if name.endswith((".antt", ".rt")):
                yield os.path.join(folder, name)


def is_type(signature, whole):
    return re.search(r"(→|^|:)\s*Type 0\s*$", signature.strip()) is not None or whole


def declared(root):
    """Every name that specs/ or proofs/ declares, and whether it is a type."""
    found = {}
    for path in files(root):
        if not path.endswith(".antt"):
            continue
        with open(path, encoding="utf-8") as f:
            lines = f.read().split("\n")
        for i, line in enumerate(lines):
            if line.lstrip().startswith("--"):
                continue
            m = DECLARED.match(line)
            if m is None:
                continue
            words, name, signature = m.group(2), m.group(3), m.group(4)
            if MADE.match(signature.strip()):
                continue
            whole = "record" in words or "data" in words
            k = i
            while k + 1 < len(lines) and lines[k + 1].startswith("    ") and "=" not in lines[k + 1]:
                k += 1
                signature += " " + lines[k].strip()
            found[name] = found.get(name, False) or is_type(signature, whole)
    return found


def locals_of(root):
    """Names that a `let` binds in a proof, and those that an import gives with `as`."""
    found = set()
    for path in files(root):
        with open(path, encoding="utf-8") as f:
            text = f.read()
        if path.endswith(".antt"):
            found.update(re.findall(r"\blet (" + NAME + r")(?: :| =)", text))
        for line in re.findall(r"^(?:ghost |pub )*use .*$", text, re.M):
            found.update(re.findall(r" as (" + NAME + r")", line))
    return found


def respelled(name, type_):
    new = name.replace("′", "'")
    if new[:1].isupper() and "-" in new:
        if type_:
            return "".join(w[:1].upper() + w[1:] for w in re.split(r"[-_]", new))
        return new[:1] + new[1:].replace("-", "_")
    return new.replace("-", "_")


def names(root):
    table = {}
    for name, type_ in declared(root).items():
        new = CHOSEN.get(name, respelled(name, type_))
        if new != name:
            table[name] = new
    for name in locals_of(root):
        new = respelled(name, False)
        if new != name and name not in table:
            table[name] = new
    return table


def imported(text):
    """What a file brings in from crates that are not the repository's: these names stay."""
    kept = set()
    for path, items in re.findall(r"use ((?:Rattle\.std|Prim|borrow|mathlib|native|lib|logic)[^\s{;]*)\.\{([^}]*)\}", text):
        kept.update(re.findall(TOKEN, items))
    return kept


def turned(text, table, kept):
    def one(m):
        w = m.group(0)
        return w if w in kept else table.get(w, w)

    return TOKEN.sub(one, text)


def antt(text, table):
    kept = imported(text)
    out = []
    for line in text.split("\n"):
        code, dash, comment = line, "", ""
        at = re.search(r"(^|\s)--(\s|$)", line)
        if at:
            code, dash, comment = line[: at.start()], at.group(0), line[at.end():]
        out.append(turned(code, table, kept) + dash + quoted(comment, table))
    return "\n".join(out)


def quoted(text, table):
    return re.sub(r"`([^`]*)`", lambda m: "`" + turned(m.group(1), table, set()) + "`", text)


def rt(text, table):
    """Ghost lines, and the braces of clauses; comments only between backquotes."""
    kept = imported(text)
    out, deep = [], 0
    for line in text.split("\n"):
        if re.match(r"\s*//", line):
            out.append(quoted(line, table))
            continue
        if deep == 0 and re.match(r"\s*(pub )?ghost ", line) or deep == 0 and re.match(r"\s*(requires|ensures)\b", line):
            out.append(turned(line, table, kept))
            deep = line.count("{") - line.count("}")
            continue
        if deep > 0:
            out.append(turned(line, table, kept))
            deep += line.count("{") - line.count("}")
            continue
        out.append(line)
    return "\n".join(out)


def main():
    root = os.getcwd()
    table = names(root)
    if "--list" in sys.argv:
        for old in sorted(table):
            print(old, table[old])
        return
    for path in files(root):
        with open(path, encoding="utf-8") as f:
            text = f.read()
        new = antt(text, table) if path.endswith(".antt") else rt(text, table)
        if new != text:
            with open(path, "w", encoding="utf-8") as f:
                f.write(new)
    for page in ("README.md", "docs/DESIGN.md", "docs/DECISIONS.md", "docs/CHANGES.md"):
        if os.path.exists(page):
            with open(page, encoding="utf-8") as f:
                text = f.read()
            with open(page, "w", encoding="utf-8") as f:
                f.write(quoted(text, table))


if __name__ == "__main__":
    main()
