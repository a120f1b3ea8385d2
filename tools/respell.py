#!/usr/bin/env python3
"""respell.py: gives the definitions and lemmas of this repository their names in snake case, as the language spells words.

Run once at the top, after the kit's port.py. A name that specs/ or a lemma file of proofs/ declares loses its inner capitals
and its dashes (withLoss becomes with_loss, answer-fine becomes answer_fine). Types and modules keep their camel case. Every
place that cites a name follows: specs/, proofs/, contracts, must-fail edits, and the documents where they quote it. What a
function's own proof declares, functions of src/, strings and outputs stay. A lemma that would have the name of a definition
ends in _lem. It stops, having written nothing, where two names fall together otherwise.
"""

import collections
import os
import re
import sys

TOKEN = re.compile(r"[^\s(){}\[\];,.λ|:=\"`]+")
NAME = r"[^\s(){};,:.λ=|\"]+"
# a signature, as `pub a b : T`, or a head with parameters, as `record R (x : T) : ..`
DECLARED = re.compile(rf"^\s*(?:(?:(?:pub|abbrev|unfoldable)\s+)*({NAME}(?:\s+{NAME})*)\s*:(?:\s|$)|(?:(?:pub|abbrev|unfoldable)\s+)*(?:data|record)\s+({NAME}))")


def read(path):
    with open(path, encoding="utf-8") as f:
        return f.read()


def files(top, endings):
    for folder, folders, names in os.walk(top):
        folders[:] = sorted(d for d in folders if d not in ("out", "target", ".git"))
        for name in sorted(names):
            if name.endswith(endings):
                yield os.path.join(folder, name)


def of_a_function(path):
    """Whether this is a part of one function's proof: a folder below proofs/ in the spelling of a function."""
    parts = path.split(os.sep)
    if "proofs" not in parts:
        return False
    below = parts[parts.index("proofs") + 1:-1]
    return any(p[0].islower() or p[0] == "+" for p in below)


def snake(name):
    name = re.sub(r"(?<=[a-z0-9'])(?=[A-Zℤℕ])", "_", name)
    return re.sub(r"[A-Z]", lambda m: m.group(0).lower(), name).replace("-", "_")


def wanted(name):
    """A word that is not in snake case: a dash inside, or a capital behind a small first letter."""
    if not re.match(r"[a-z]", name):
        return False
    return "-" in name or bool(re.search(r"[A-Zℤℕ]", name))


def declarations(text):
    for line in plain(text).split("\n"):
        m = DECLARED.match(line)
        words = (m.group(1) or m.group(2)).split() if m else []
        while words and words[0] in ("pub", "abbrev", "unfoldable"):
            words.pop(0)
        if words and not set(words) & {"let", "in", "where", "elim", "rw", "use", "mod", "module", "data", "record"}:
            yield from words


def plain(text):
    """The text with no comments."""
    return re.sub(r"--[^\n]*", "", text)


def outside_strings(text, change):
    parts = re.split(r"(\"(?:[^\"\\\n]|\\.)*\")", text)
    return "".join(p if i % 2 else change(p) for i, p in enumerate(parts))


def main():
    if not os.path.isfile("crates.txt"):
        raise SystemExit("respell.py: run it at the top of the repository")
    antt = list(files("crates", (".antt",)))
    taken = collections.defaultdict(set)
    for path in antt:
        if not of_a_function(path):
            for name in declarations(read(path)):
                taken[name].add(path)
    names = {n: snake(n) for n in taken if wanted(n)}
    names = {old: new for old, new in names.items() if old != new}
    # where a lemma would have the name of a definition that its file cites, the lemma ends in _lem
    ending = set()
    for path in antt:
        if of_a_function(path):
            continue
        tokens = set(TOKEN.findall(plain(read(path))))
        new_names = collections.defaultdict(set)
        for token in tokens:
            new_names[names.get(token, token)].add(token)
        for new, olds in sorted(new_names.items()):
            if len(olds) < 2 or not olds & names.keys():
                continue
            # the definition keeps the word: the name with inner capitals or, where none has any, the one with no dash
            kept = [o for o in olds if "-" not in o and re.search(r"[A-Zℤℕ]", o)] or [o for o in olds if "-" not in o]
            if len(kept) != 1:
                bad = " and ".join(sorted(olds))
                raise SystemExit(f"respell.py: {bad} fall together in {path}; nothing was written")
            for old in olds - set(kept):
                if old in names:
                    names[old] = new + "_lem"
                else:
                    ending.add(old)

    def lemma_ends(path, text):
        """The lemmas of `ending` that this file declares or imports. A field of a promise (`pub too_many : (a.number ..`) is none."""
        found = set()
        for name in ending & set(TOKEN.findall(text)):
            quoted = re.escape(name)
            declared = re.search(rf"^ *(?:pub )?{quoted} ?:", text, re.M) and not re.search(rf"^ *pub {quoted} : \(a\.", text, re.M)
            imported = re.search(rf"^use [^\n]*[{{,. ]{quoted}[}},\s]", text, re.M)
            if declared or imported:
                found.add(name)
        return found

    own_crates = {line.split(":")[0].split()[0] for line in read("crates.txt").split("\n") if line.strip() and not line.startswith("#")}

    def of_a_library(text):
        """The names that this file imports from a library of the kit: theirs to spell."""
        found = set()
        for m in re.finditer(r"^(?:ghost )?use ([^\s{]+?)\.\{([^}]*)\}", text, re.M):
            path = m.group(1).split(".")
            if path[0] != "Rattle" or path[1] not in own_crates:
                found |= set(TOKEN.findall(m.group(2)))
        return found

    def turned(left, ends):
        def one(m):
            word = m.group(0)
            if word in ends:
                return word + "_lem"
            return word if word in left else names.get(word, word)
        return lambda text: TOKEN.sub(one, text)

    wrote = 0
    def write(path, text, new):
        nonlocal wrote
        if new != text:
            with open(path, "w", encoding="utf-8") as f:
                f.write(new)
            wrote += 1

    for path in antt:
        text = read(path)
        own = set(declarations(text)) if of_a_function(path) else set()
        new = turned(own | of_a_library(text), lemma_ends(path, text))(text)
        write(path, text, new)
    for path in files("crates", (".rt", ".edit")):
        text = read(path)
        write(path, text, outside_strings(text, turned(of_a_library(text), set())))
    for path in [*files("docs", (".md",)), "README.md"]:
        text = read(path)
        if os.path.basename(path).startswith("PORT"):
            continue
        write(path, text, re.sub(r"`[^`\n]+`", lambda m: turned(set(), set())(m.group(0)), text))
    print(f"respell.py: {len(names)} names in snake case, {wrote} files changed")


if __name__ == "__main__":
    main()
