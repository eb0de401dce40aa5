#!/usr/bin/env python3
"""Brings the names of the definitions and lemmas of the crates to snake case: bitsIn and bits-in become bits_in.

usage: tools/snake_names.py [--table]      at the top of the repository; --table prints what it would rename, and writes nothing

Types, modules and facts, which begin with a capital, keep their names; so do names of Rust items, which are in snake case, and the
names that the library has. Names are turned in the crates' files, in the edits, and in the pages and comments where they stand in
backquotes.
"""

import os
import re
import subprocess
import sys

TOKEN = re.compile(r"[^\s(){}\[\],;.`]+")
DECLARED = re.compile(r"^[ \t]*(?:(?:abbrev|unfoldable|pub|data|record|instance|axiom)\s+)*([a-z][^\s(){}\[\],;.`]*)(?=(?:\s+[a-z][^\s(){}\[\],;.`:]*)*\s+:(?:\s|$))", re.M)


def snake(name):
    name = re.sub(r"([a-z0-9])([A-Z]+)", lambda m: m[1] + "_" + m[2].lower(), name)
    return name.replace("-", "_")


def is_word(name):
    """A name that is to be turned: words of ASCII joined by capitals or dashes."""
    return re.fullmatch(r"[a-z][A-Za-z0-9]*(?:[-_][A-Za-z0-9]+)*'*", name) and snake(name) != name


def files(*endings):
    listed = subprocess.run(["git", "ls-files", "-z"], capture_output=True, check=True).stdout.decode().split("\0")
    return [f for f in listed if f.endswith(endings) and os.path.isfile(f)]


def read(path):
    with open(path, encoding="utf-8") as f:
        return f.read()


def words(path):
    return set(TOKEN.findall(read(path)))


def code_of(line, mark):
    """A line's code and its comment."""
    at = line.find(mark)
    return (line, "") if at < 0 else (line[:at], line[at:])


def declared():
    """Each name that a file of specs/ or proofs/ declares, fields and constructors among them; of a function's own proof, its lemmas."""
    found, plain = set(), set()
    for path in files(".antt"):
        text = "\n".join(code_of(line, "--")[0] for line in read(path).split("\n"))
        for m in DECLARED.finditer(text):
            colon = text.find(":", m.end(1))
            # the goals of a function's proof have names that Rattle makes
            if re.match(r":\s+(?:tie\.|goal\.|\{M : Type 1\})", text[colon:]):
                continue
            # several names can share a signature
            for name in TOKEN.findall(text[m.start(1) : colon]):
                if is_word(name):
                    found.add(name)
                else:
                    plain.add(name)
    return found, plain


def renamed():
    """Old names to new. A lemma that would have its definition's name gets `_lem`."""
    found, plain = declared()
    table = {name: snake(name) for name in found if "-" not in name}
    taken = set(table.values()) | plain
    for name in sorted(found - set(table)):
        table[name] = snake(name) + ("_lem" if snake(name) in taken else "")
    # where one file speaks of both, a lemma that has the new name already makes room for its definition
    for old, new in list(table.items()):
        if new in plain and any(old in them and new in them for them in map(words, files(".antt", ".rt"))):
            table[new] = new + "_lem"
    values = list(table.values())
    clash = sorted({new for new in values if values.count(new) > 1})
    if clash:
        sys.exit("snake_names: names fall together: " + " ".join(clash))
    return dict(sorted(table.items()))


def turned(text, table):
    return TOKEN.sub(lambda m: table.get(m[0], m[0]), text)


def in_quotes(text, table):
    return re.sub(r"`[^`\n]+`", lambda m: "`" + turned(m[0][1:-1], table) + "`", text)


def turn_lines(text, mark, table):
    out = []
    for line in text.split("\n"):
        code, comment = code_of(line, mark)
        out.append(turned(code, table) + in_quotes(comment, table))
    return "\n".join(out)


def of_clauses(table):
    """In a source only clauses and imports have a name with a dash or a capital within; a name without is one of the code."""
    return {old: new for old, new in table.items() if is_word(old)}


def write(path, text):
    if text != read(path):
        with open(path, "w", encoding="utf-8") as f:
            f.write(text)


def main(words):
    table = renamed()
    if words == ["--table"]:
        for old, new in table.items():
            print(old, new)
        return
    for path in files(".antt"):
        write(path, turn_lines(read(path), "--", table))
    for path in files(".rt"):
        write(path, turn_lines(read(path), "//", of_clauses(table)))
    for path in files(".edit"):
        write(path, "\n".join(turned(l, of_clauses(table)) if l.startswith(("old:", "new:")) else in_quotes(l, table) for l in read(path).split("\n")))
    for path in files(".md"):
        write(path, in_quotes(read(path), table))


if __name__ == "__main__":
    main(sys.argv[1:])
