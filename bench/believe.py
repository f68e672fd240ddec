#!/usr/bin/env python3
"""Counts what one must believe for the headline: the definitions that the clauses of the top call reach, by crate.

    python3 bench/believe.py

It reads the files of specs/ as text: a definition is a name at the left edge (or in a `mutual` or `module` block), with its type, and its
equations, fields or constructors. A definition reaches the names that stand in it, as its file's `use` lines resolve them. Lines are those of
the definitions without comments and empty lines. What stands in the proved libraries isn't counted, nor are types of the code.
"""
import os
import re
import sys

TOP = "dessert.specs.Headline"
ROOTS = ("IsAnswer", "IsComplete")
WORD = re.compile(r"[^\s(){}.,;λ∷]+")
USE = re.compile(r"^\s*(?:pub )?use Rattle\.(\S+?)(?:\.\{([^}]*)\})?(?: as (\S+))?\s*$")
HEAD = re.compile(r"^\s*(?:abbrev )?(?:mutual )?(?:pub )?(?:(?:data|record) )?(\S+)(?= .*:|$)")


def path_of(module):
    crate, _, rest = module.partition(".specs.")
    return os.path.join("crates", crate, "specs", *rest.split(".")) + ".antt"


class File:
    """A file of definitions: its names with their lines, and what its `use` lines bring."""

    def __init__(self, module):
        self.module = module
        self.names = {}
        self.uses = {}
        self.prefixes = {}
        # Lines further in than this belong to the definition before: the fields of a record, or what goes on.
        self.within = 2
        self.indents = {}
        self.read(open(path_of(module), encoding="utf-8").read().split("\n"))

    def read(self, lines):
        owner = None
        for line in lines:
            text = line.split("--")[0].rstrip()
            if not text:
                continue
            use = USE.match(text)
            if use:
                self.use(*use.groups())
                continue
            if re.match(r"^\s*(abbrev )?(mutual|module|unfolding|infix\w*)\b", text):
                continue
            owner = self.owner_of(text, owner)
            if owner:
                self.names.setdefault(owner, []).append(text)

    def owner_of(self, text, owner):
        """The definition that a line belongs to: its own, where the line begins one or goes on with one, else the last."""
        indent = len(text) - len(text.lstrip())
        words = [it for it in text.split() if it not in ("abbrev", "pub", "data", "record")]
        if indent > self.within:
            return owner
        self.within = 2
        if text.lstrip().startswith(("pub ", "abbrev ", "data ", "record ")) or re.match(r"^\s*\S+ : ", text):
            if re.search(r"\b(data|record) \S", text):
                self.within = indent
            name = words[0].strip("◌")
            self.indents[name] = indent
            return name
        return words[0] if words and self.indents.get(words[0]) == indent else owner

    def use(self, module, names, alias):
        if names is not None:
            for name in names.split(","):
                name = name.strip().split(" as ")
                self.uses[name[-1].strip("◌")] = (module, name[0].strip("◌"))
        elif alias:
            self.prefixes[alias] = module
        else:
            self.prefixes[module.split(".")[-1]] = module


FILES = {}


def file_of(module):
    if module not in FILES:
        FILES[module] = File(module) if os.path.exists(path_of(module)) else None
    return FILES[module]


def resolve(file, word):
    """Where a word of a file is defined, if in a file of definitions."""
    if word in file.names:
        return file.module, word
    if word in file.uses:
        module, name = file.uses[word]
        other = file_of(module)
        if other is None:
            return None
        return (module, name) if name in other.names else resolve(other, name)
    return None


def words_of(file, lines):
    for line in lines:
        line = re.sub(r'"[^"]*"', "", line)
        for alias, name in re.findall(r"(\w+)\.(\S[^\s(){},;]*)", line):
            if alias in file.prefixes:
                other = file_of(file.prefixes[alias])
                if other and name in other.names:
                    yield other.module, name
        for word in WORD.findall(line):
            found = resolve(file, word)
            if found:
                yield found


def reached():
    left = [(TOP, name) for name in ROOTS]
    seen = set(left)
    while left:
        module, name = left.pop()
        file = file_of(module)
        for found in words_of(file, file.names[name]):
            if found not in seen:
                seen.add(found)
                left.append(found)
    return seen


def main():
    os.chdir(os.path.join(os.path.dirname(os.path.abspath(__file__)), ".."))
    counts = {}
    for module, name in reached():
        crate = module.partition(".specs.")[0]
        count = counts.setdefault(crate, [0, 0, set()])
        count[0] += 1
        count[1] += len(FILES[module].names[name])
        count[2].add(module.partition(".specs.")[2])
    for crate in sorted(counts):
        definitions, lines, files = counts[crate]
        print(f"{crate:12} {definitions:4} definitions {lines:5} lines: {', '.join(sorted(files))}")
    total = [sum(it[i] for it in counts.values()) for i in (0, 1)]
    print(f"together {total[0]} definitions of {total[1]} lines in {sum(len(it[2]) for it in counts.values())} files")


if __name__ == "__main__":
    sys.exit(main())
