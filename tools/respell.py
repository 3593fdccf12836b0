#!/usr/bin/env python3
"""Spells the names of this repository's definitions and lemmas as today's Rattle does, once, after port.py.

usage: tools/respell.py          at the top of the repository: rewrites crates/*/{src,specs,proofs} in place
       tools/respell.py inner    the same for names declared further in, as in a `module _ .. where`

A name that specs/ or proofs/ declare (a definition, a lemma, a field, a constructor) is written in snake case: goesOn and goes-on
are goes_on. A fact or a type keeps its capitals: Makes-new is MakesNew. Where two names would fall together in one file
one of them gets _lem, mostly the lemma. Functions of src/, exported names, strings and the labels that Rattle makes keep their names.
"""

import collections
import os
import re
import sys

TOKEN = r"[^\s(){}.;,@\"«»\[\]|]+"
DECLARED = re.compile(r"^(?:(?:pub|abbrev|unfoldable)\s+)*([^\s:(){}=|,;]+)\s*:(?!\S)")
TYPE = re.compile(r"^\s*(?:pub\s+)?(?:abbrev\s+)?(data|record)\s+([^\s:(){}]+)")
INNER = re.compile(r"^\s+(?:(?:pub|abbrev|unfoldable)\s+)*([^\s:(){}=|,;]+)\s*:(?!\S)")
MEMBER = re.compile(r"^\s+(?:pub\s+)?\|?\s*([^\s:(){}=|,;]+)\s*:(?!\S)")
OF_A_FUNCTION = re.compile(r"/proofs/[^/]+/")
# The names of a proof of a function that Rattle asks for.
ASKED = re.compile(r"^(invariant|decreases|loop|returns|Inv|μ|ghost)(-|$)|^Need-|-requires|^overflow|^bounds|^nonzero|^prove|^slice_bounds|^cast")
INNER_TOO = sys.argv[1:] == ["inner"]
# Declared behind implicit arguments or in a pattern of two lines.
BESIDE_ARGUMENTS = {"cannotSend": "cannot_send", "passesTop": "passes_top", "framesOfA": "frames_of_a", "tookLast": "took_last"}
# Lemmas that are in snake case already and meet a definition's new name.
MET = [("crates/fix_field/", "is_digit"), ("crates/", "same_text"), ("crates/standby_step/", "found_in")]


def files(suffixes):
    for folder, dirs, names in os.walk("crates"):
        dirs[:] = sorted(d for d in dirs if d not in ("out", "must-fail"))
        for n in sorted(names):
            if n.endswith(suffixes):
                yield os.path.join(folder, n)


def snake(name):
    if name[0].isupper():
        if not re.fullmatch(r"[A-Z]\w*[a-z]\w*(-[a-z]\w*)+", name):
            return name.replace("-", "_")
        return re.sub(r"-([a-z])", lambda m: m[1].upper(), name)
    return re.sub(r"(?<=[a-z0-9])[A-Z](?=[a-z]|$)", lambda m: "_" + m[0].lower(), name).replace("-", "_")


def declared():
    """Each declared name with its kinds: D a definition or lemma, T a type, F a field, C a constructor."""
    kinds, local = collections.defaultdict(set), collections.defaultdict(set)
    for path in files(".antt"):
        inside = None
        to = local if OF_A_FUNCTION.search(path) else kinds
        with open(path, encoding="utf-8") as f:
            for line in f:
                if m := TYPE.match(line):
                    inside = m[1]
                    to[m[2]].add("T")
                elif line.strip() and not line[0].isspace():
                    inside = None
                    if m := DECLARED.match(line):
                        to[m[1]].add("D")
                elif INNER_TOO and not inside and (m := INNER.match(line)):
                    to[m[1]].add("D")
                elif inside and (m := MEMBER.match(line)):
                    to[m[1]].add("F" if inside == "record" else "C")
    return kinds, local


def table(kinds, local, taken, together):
    """Old name to new. taken: names that stand already; together: whether one file has both."""
    to = collections.defaultdict(list)
    for name in list(kinds) + [n for n in local if n not in kinds]:
        new = snake(name)
        if new != name and not (name in local and name not in kinds and ASKED.search(name)):
            to[new].append(name)
    names = {}
    for new, olds in to.items():
        # A definition is in camel case in the older spelling, a lemma has dashes: the lemma gives way where one file has both.
        olds.sort(key=lambda n: ("-" in n, n))
        names[olds[0]] = new
        if ("-" in olds[0] or INNER_TOO) and new in taken and together(olds[0], new):
            names[olds[0]] = new + "_lem"
        for name in olds[1:]:
            names[name] = new + "_lem" if together(name, olds[0]) or together(name, new) else new
    return names


def lent(text, own):
    """The names that a file imports from a library."""
    found = set()
    for m in re.finditer(r"\buse ([^\s;{]+)\.\{([^}]*)\}", text):
        steps = m[1].split(".")
        if steps[0] == "package" or steps[0] == "Rattle" and steps[1] in own:
            continue
        for item in m[2].split(","):
            found.add(item.split(" as ")[-1].strip())
    return found


def main():
    own = set(os.listdir("crates"))
    kinds, local = declared()
    taken = set(kinds) | set(local)
    words = {}
    for path in files((".antt", ".rt")):
        with open(path, encoding="utf-8") as f:
            words[path] = set(re.findall(TOKEN, f.read()))
    names = table(kinds, local, taken, lambda a, b: any(a in w and b in w for p, w in words.items() if p.endswith(".antt")))
    fields = {n for n in names if kinds.get(n, set()) & {"F", "C"} or local.get(n, set()) & {"F", "C"}}
    if INNER_TOO:
        names.update(BESIDE_ARGUMENTS)
    pattern = re.compile(rf"(?<![^\s(){{}}.;,@\"«»\[\]|]){TOKEN}")
    changed = 0
    for path in files((".antt", ".rt")):
        with open(path, encoding="utf-8") as f:
            text = f.read()
        of_function = bool(OF_A_FUNCTION.search(path))
        theirs = lent(text, own)

        def turn(m):
            word = m[0]
            for crate, lemma in [] if INNER_TOO else MET:
                if word == lemma and path.endswith(".antt") and path.startswith(crate):
                    line = text[text.rfind("\n", 0, m.start()) + 1 : m.start()]
                    if not line.endswith("."):
                        return word + "_lem"
            if word not in names or word in theirs:
                return word
            line = text[text.rfind("\n", 0, m.start()) + 1 : m.start()]
            if re.match(r"(pub )?use ", line) and "{" not in line and text[m.end() : m.end() + 1] == ".":
                return word
            # Behind a dot in the proof of a function most names are labels that Rattle makes.
            if of_function and m.start() and text[m.start() - 1] == "." and word not in fields:
                before = text[: m.start() - 1]
                if not before.endswith(("specs", "proofs")) and re.search(r"[\w)]$", before) and not re.search(r"\b(Rattle[\w.]*|use [\w.]*)$", before):
                    return word
            return names[word]

        turned = pattern.sub(turn, text)
        if turned != text:
            changed += 1
            olds = set(pattern.findall(text))
            for name in sorted(olds & set(names)):
                if names[name] in olds:
                    print(f"look: {path}: {name} meets {names[name]}")
            with open(path, "w", encoding="utf-8") as f:
                f.write(turned)
    with open("tools/respelled-inner.tsv" if INNER_TOO else "tools/respelled.tsv", "w", encoding="utf-8") as f:
        for old, new in sorted(names.items()):
            f.write(f"{old}\t{new}\n")
    print(f"respell: {len(names)} names in {changed} files; the table is in tools/respelled{'-inner' if INNER_TOO else ''}.tsv")


if __name__ == "__main__":
    sys.exit(main())
