#!/usr/bin/env python3
"""Counts the places that the page docs/DESIGN-PASS.md speaks of, in the sources of all crates. Run it at the repository's root, also over an
older state that was taken out with `git worktree`: `python3 tools/design_counts.py [ROOT]`. With -v it prints each place."""
import collections
import pathlib
import re
import sys

ARGS = [a for a in sys.argv[1:] if a != "-v"]
VERBOSE = "-v" in sys.argv
ROOT = pathlib.Path(ARGS[0] if ARGS else ".")
FILES = sorted(ROOT.glob("crates/*/src/**/*.rt"))


def text_of(path):
    return path.read_text()


def without_comments(text):
    return re.sub(r"//[^\n]*", "", text)


def line_at(text, at):
    return text.count("\n", 0, at) + 1


def places(pattern, flags=re.M):
    for path in FILES:
        text = text_of(path)
        for m in re.finditer(pattern, text, flags):
            line = text[text.rfind("\n", 0, m.start()) + 1:].split("\n", 1)[0].strip()
            yield f"{path.relative_to(ROOT)}:{line_at(text, m.start())}: {line}"


def functions():
    """All functions: path, name, parameters, clauses, body."""
    for path in FILES:
        text = without_comments(text_of(path))
        for m in re.finditer(r"\bfn (\w+)(?:<[^(]*>)?\(", text):
            depth, i = 1, m.end()
            while depth:
                depth += {"(": 1, ")": -1}.get(text[i], 0)
                i += 1
            parameters = text[m.end():i - 1]
            # the body is the first brace at which a line begins or a head ends, behind the clauses
            clauses = []
            j = i
            while True:
                clause = re.match(r"[^{;]*?\b(requires|ensures)\s*(?:[\w ]*?)\{", text[j:])
                if not clause or "\n{" in clause.group(0) or re.search(r"[;{]", clause.group(0)[:-1]):
                    break
                depth, k = 1, j + clause.end()
                start = k
                while depth:
                    depth += {"{": 1, "}": -1}.get(text[k], 0)
                    k += 1
                clauses.append((clause.group(1), " ".join(text[start:k - 1].split())))
                j = k
            head = re.match(r"[^{;]*", text[j:])
            j += head.end()
            if text[j:j + 1] != "{":
                yield path, m.group(1), parameters, clauses, ""
                continue
            depth, k = 1, j + 1
            while depth:
                depth += {"{": 1, "}": -1}.get(text[k], 0)
                k += 1
            yield path, m.group(1), parameters, clauses, text[j:k]


def show(title, found):
    found = list(found)
    print(f"{len(found):4}  {title}")
    if VERBOSE:
        for f in found:
            print("      ", f)


def shape(body):
    """A body with its names and numbers taken away."""
    body = re.sub(r'"[^"]*"', '"', body)
    body = re.sub(r"\b(?!(?:if|else|match|for|in|return|let|mut|Some|None|Ok|Err|as|while|loop)\b)\w+\b", "x", body)
    return "".join(body.split())


def twins():
    by_shape = collections.defaultdict(list)
    for path, name, parameters, clauses, body in functions():
        if len(shape(body)) > 40:
            by_shape[shape(body)].append(f"{path.relative_to(ROOT)}: {name}")
    for group in by_shape.values():
        if len(group) > 1:
            yield ", ".join(group)


def repeated_files():
    """Pairs of files of two crates of which most lines are the same."""
    lines = {p: [l.strip() for l in text_of(p).splitlines() if len(l.strip()) > 12 and not l.strip().startswith(("ghost use", "use"))] for p in FILES}
    for i, a in enumerate(FILES):
        for b in FILES[i + 1:]:
            if a.parts[-3] != b.parts[-3] and len(lines[a]) > 8 and len(lines[b]) > 8:
                same = len(set(lines[a]) & set(lines[b]))
                if 2 * same >= min(len(set(lines[a])), len(set(lines[b]))):
                    yield f"{a.relative_to(ROOT)} and {b.relative_to(ROOT)}: {same} lines"


def same_constants():
    """A constant of one name that stands in two crates."""
    by_name = collections.defaultdict(set)
    for path in FILES:
        for m in re.finditer(r"const (\w+): (?:u8|u16|u32|u64|usize) = ([^;]+);", text_of(path)):
            by_name[m.group(1)].add((path.relative_to(ROOT).parts[1], m.group(2)))
    for name, uses in sorted(by_name.items()):
        crates = sorted({c for c, _ in uses})
        if len(crates) > 1:
            yield f"{name}: {', '.join(crates)}"


def clauses_thrice():
    count = collections.Counter()
    where = collections.defaultdict(list)
    for path, name, parameters, clauses, body in functions():
        for kind, clause in clauses:
            key = (kind, re.sub(r"\b(old|now|entry)\b", "old", clause))
            count[key] += 1
            where[key].append(name)
    for key, n in sorted(count.items(), key=lambda e: -e[1]):
        if n > 2:
            yield f"{n} times {key[0]} {{ {key[1][:110]} }} ({', '.join(where[key][:12])})"


def parameters_thrice():
    pairs = collections.defaultdict(list)
    for path, name, parameters, clauses, body in functions():
        names = [" ".join(p.split()) for p in re.split(r",\s*(?![^<(\[]*[>)\]])", parameters) if ":" in p]
        crate = path.relative_to(ROOT).parts[1]
        for i, a in enumerate(names):
            for b in names[i + 1:]:
                pairs[crate, a, b].append(name)
    for (crate, a, b), fns in sorted(pairs.items(), key=lambda e: -len(e[1])):
        if len(fns) > 2:
            yield f"{crate}: ({a}, {b}) in {len(fns)}: {', '.join(fns[:14])}"


print("point 1")
show("refusals by hand: let .. else, with return None", places(r"else \{\s*return None;\s*\}"))
show("bytes and numbers that stand for kinds: constants", places(r"^(?:pub(?:\(crate\))? )?const \w+: u8 = \d+;"))
show("tables of words at their numbers, and the number for a word or a word for a number",
     places(r"^(?:pub )?const \w+: \[&str; \d+\]|^\s*\d+ => (?:Some\()?\"|^\s*\d+ => Some\(\w+::|^\s*\w+::\w+ => \d+,|=> Some\(\(?(?:true|false), rest"))
show("numbers for ends, events, refusals: a parameter or field", places(r"\b(?:end|kind|axis|number|op): u(?:8|64)\b|-> u64 *$|No\(u64\)|Over\(u64\)|Ended\(u64\)"))
show("a flag with a value beside it: fields", places(r"^\s*(?:pub(?:\(crate\))? )?\w+: bool,|\bbool, (?:millionths|&)"))
show("a value that stands for none", places(r"unwrap_or\(0\)|unwrap_or\(\(|return 0;"))
print("point 2")
show("functions of one shape", twins())
show("files of two crates with most lines in common", repeated_files())
show("constants of one name in two crates", same_constants())
print("point 3")
show("loops over numbers", places(r"^\s*for \w+ in \w*\d*\.\.|^\s*for \w+ in [\w.()]+\.\.|^\s*while "))
show("loops that only ask whether all or one", places(r"for [^\n]*\{\n\s*if [^\n]*\{\n\s*return (?:false|true|i|Some)"))
show("bytes taken one by one", places(r"(?:\w+\[\w+(?: \+ \d)?\],\s*){3,}|(?:word_from\(bytes, \d+\),\s*){3,}"))
print("point 4")
show("conversions by hand", places(r"fn (?:number|numbered|words|of|from_sign|sign|operator_mark|function_word|refusal|marked|kind|told|with_number|from_bytes|write_to|as_slice)\b"))
show("derives with neither equality nor Debug", places(r"#\[derive\((?:Clone, Copy|Drop)\)\]"))
print("point 5")
show("clauses that stand three times or more", clauses_thrice())
show("two parameters that three or more functions have", parameters_thrice())
print("point 6")
show("a buffer with a length beside", places(r"\[u8; \w+\],\n\s*(?:pub(?:\(crate\))? )?len\w*: usize"))
show("lists of one length side by side", places(r"(\w+): Vec<(\[u8; 64\])>,\n\s*(?:pub(?:\(crate\))? )?\w+: Vec<\2>"))
print("point 7")
show("an enum that says which function to run", places(r"enum (?:Job|Part|Start)\b"))
