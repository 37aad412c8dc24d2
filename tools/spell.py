#!/usr/bin/env python3
"""Brings the repository's own names of definitions and lemmas to snake case; run once, at the top, behind port.py.

A name that specs/ or a module of proofs/ declares and that begins with a small letter has its words joined by `_`:
eventLength and event-length become event_length. Where two names would fall together the one of
specs/ has the plain word, and the other gets `_lem` behind it. Types, modules, functions of src/, strings, and what the library or Rattle itself names keep
their spelling. It rewrites crates/, audit/ and the pages, and prints each name with its new one.
"""

import collections
import glob
import os
import re
import sys

WORD = re.compile(r"(?<!::)[^\s(){}\[\]:→λ,;.⌜⌝∷`\"'|/=]+(?:'+)?")
DECLARED = re.compile(
    r"\s*(?:(?:abbrev|unfoldable|pub|data|record|ruleset)\s+)*([^\s(){}:→λ,;]+)\s*(?:[({].*)?\s:\s"
)
IMPORTED = re.compile(r"^\s*(?:pub )?(?:ghost )?use ([^\s{;]+)\.\{([^}]*)\}")


def own_modules():
    """The files whose names are the repository's own: specs/, and the lemmas of proofs/ (not a function's proof)."""
    return sorted(glob.glob("crates/*/specs/*.antt") + glob.glob("crates/*/proofs/*.antt"))


def declared(path):
    names = set()
    with open(path, encoding="utf-8") as file:
        for line in file:
            found = DECLARED.match(line)
            if found and not line.lstrip().startswith(("--", "let ")):
                names.add(found.group(1))
    return names


def snake(name):
    parts = re.sub(r"(?<=[a-z0-9])([A-Z])", r"_\1", name)
    return re.sub(r"[-_]+", "_", parts).lower()


def spelled():
    """Each own name with its new one, and the names that fell together: the one of specs/ has the plain word."""
    where = collections.defaultdict(set)
    for path in own_modules():
        for name in declared(path):
            where[name].add("/specs/" in path)
    groups = collections.defaultdict(list)
    for name in where:
        if re.match(r"[a-z]", name) and re.fullmatch(r"[\w'-]+", name):
            groups[snake(name)].append(name)
    new, together = {}, []
    for word, group in groups.items():
        group.sort(key=lambda name: (True not in where[name], "-" in name, name))
        for at, name in enumerate(group):
            new[name] = word + "_lem" * at
        if len(group) > 1:
            together.append([(name, new[name]) for name in group])
    if len(set(new.values())) < len(new):
        sys.exit("spell: two names became one")
    return {old: word for old, word in new.items() if old != word}, together


def not_own(text, path):
    """The names that a file has from elsewhere, or declares itself as a function's proof."""
    names = set()
    for line in text.splitlines():
        found = IMPORTED.match(line)
        if found and not re.match(r"Rattle\.\w+\.(specs|proofs)\.", found.group(1)):
            names |= {w.strip().split(" as ")[0] for w in found.group(2).split(",")}
        if found and re.match(r"Rattle\.(std|core|std_\w+|io|libc|os)\.", found.group(1)):
            names |= {w.strip().split(" as ")[0] for w in found.group(2).split(",")}
    if re.search(r"crates/\w+/proofs/.+/\w+\.antt$", path):
        names |= declared(path)
    return names


def turned(text, new, keep):
    def one(found):
        word = found.group(0)
        return new[word] if word in new and word not in keep else word

    return WORD.sub(one, text)


def pages_turned(text, new):
    """A page names a definition or a lemma in backquotes."""
    return re.sub(r"`[^`\n]+`", lambda found: turned(found.group(0), new, set()), text)


def main():
    new, together = spelled()
    # outside antt a name in snake case may be a function's
    clear = {old: word for old, word in new.items() if re.search("[-A-Z]", old)}
    for path in sorted(glob.glob("crates/**/*", recursive=True) + glob.glob("audit/*")):
        if not path.endswith((".rt", ".antt", ".edit", ".edits")) or "/out/" in path or not os.path.isfile(path):
            continue
        with open(path, encoding="utf-8") as file:
            text = file.read()
        here = new if path.endswith(".antt") else clear
        after = turned(text, here, not_own(text, path))
        if after != text:
            with open(path, "w", encoding="utf-8") as file:
                file.write(after)
    for path in sorted(glob.glob("*.md") + glob.glob("docs/**/*.md", recursive=True)):
        with open(path, encoding="utf-8") as file:
            text = file.read()
        after = pages_turned(text, clear)
        if after != text:
            with open(path, "w", encoding="utf-8") as file:
                file.write(after)
    for group in together:
        print("fell together:", ", ".join(f"{old} -> {word}" for old, word in group))
    for old in sorted(new):
        print(old, "->", new[old])


if __name__ == "__main__":
    main()
