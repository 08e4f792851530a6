#!/usr/bin/env python3
"""Respells the repository's own definitions and lemmas as today's Rattle spells names: words in snake case.

Run once, at the top, on what the kit's port.py leaves of the older form. A definition or lemma is what a line of specs/ or of a shared file of
proofs/ declares, a constructor or a field in it, and a name that a `use` brings in by `as`. `rowCount` becomes `row_count`, `count-sets` becomes
`count_sets`. A dash between two names in capitals stays (`NOT-AND`), and so do capitals that the format itself writes (`AND`, `NULL`). Names of
functions, types, modules, constants and of goals are left alone. Prints each name with its new spelling, and where two fall together.
"""
import collections
import os
import re
import sys

# An acronym is one word; and a lemma that would fall together with the definition that it is about gets `_lem`.
NOT_BY_RULE = {
    "isNaN": "is_nan",
    "read_back": "read_back_lem",
    "source-to": "source_to_lem",
    "looked-up-numbers": "looked_up_numbers_lem",
    "found-numbers": "found_numbers_lem",
    "first-at": "first_at_lem",
    "is-test": "is_test_lem",
    "literal-test": "literal_test_lem",
    "over-one": "over_one_lem",
    "over-two": "over_two_lem",
}
DECLARES = re.compile(r"^ *(?:abbrev |unfoldable |pub )*([A-Za-z][\w'?-]*)\s*(?:[({][^:]*:.*)?:(?!:)\s")
RECORD_HEAD = re.compile(r"^(?:abbrev |pub )*(?:data|record) ")
MEMBER = re.compile(r"^\s+(?:pub )?((?:[A-Za-z][\w'?-]* )+): ")
ALIAS = re.compile(r"\b[\w'-]+ as ([a-z][\w'-]*)")


def files(*ends):
    for root, folders, names in os.walk("crates"):
        folders.sort()
        for name in sorted(names):
            if name.endswith(ends):
                yield os.path.join(root, name)


def is_shared(path):
    """A file of specs/, or one that lies in proofs/ itself and not in a function's folder."""
    return "/specs/" in path or ("/proofs/" in path and "/" not in path.split("/proofs/")[1])


def declared():
    names = collections.OrderedDict()
    for path in files(".antt"):
        within = False
        for line in open(path):
            if not is_shared(path):
                continue
            found = DECLARES.match(line)
            if found and not line.startswith(("use ", "mod ", "--")):
                names[found.group(1)] = path
            if RECORD_HEAD.match(line):
                within = True
            elif line.strip() and not line.startswith((" ", "--")):
                within = False
            member = within and MEMBER.match(line)
            if member:
                for name in member.group(1).split():
                    names[name] = path
    for path in files(".antt", ".rt"):
        for line in open(path):
            if (path.endswith(".rt") or is_shared(path)) and line.startswith(("use ", "ghost use ")):
                for name in ALIAS.findall(line):
                    names.setdefault(name, path)
    return names


def respelled(name):
    if name in NOT_BY_RULE:
        return NOT_BY_RULE[name]
    if name[0].isupper():
        parts = name.split("-")
        return "-".join(parts) if all(p.isupper() for p in parts) else name.replace("-", "_")
    name = re.sub(r"([a-z0-9])([A-Z])", lambda m: m.group(1) + "_" + m.group(2).lower(), name)
    return name.replace("-", "_")


def main():
    names = declared()
    turned = collections.OrderedDict((n, respelled(n)) for n in names if respelled(n) != n)
    sources = collections.defaultdict(list)
    for name in names:
        sources[respelled(name)].append(name)
    for new, olds in sources.items():
        if len(olds) > 1:
            print("fall together:", new, "of", " and ".join(olds))
    functions = set()
    for path in files(".rt"):
        functions.update(re.findall(r"\bfn (\w+)", open(path).read()))
    for old, new in turned.items():
        print(old, "->", new, "(a function has this name)" if new in functions else "")

    token = re.compile(r"(?<![\w'?-])(" + "|".join(sorted(map(re.escape, turned), key=len, reverse=True)) + r")(?![\w'?-])")
    for path in files(".antt", ".rt", ".edit"):
        text = open(path).read()
        new = token.sub(lambda m: turned[m.group(1)], text)
        if new != text:
            open(path, "w").write(new)
    return 0


if __name__ == "__main__":
    sys.exit(main())
