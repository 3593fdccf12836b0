#!/usr/bin/env python3
"""Brings the labels of a crate's hand-written proofs (proofs/F/Proof.antt) to those that today's Rattle makes.

usage: tools/relabel.py NAMES CRATE..     at the top; NAMES is the folder that `rt check --generated NAMES --old-names` filled

The goals go by their place in `tie.spec`, steps by the table of old and new labels that Rattle prints. Run it once: a new label may be an older one.
"""

import json
import os
import re
import sys

WORD = r"[^\s(){}.;,@\"«»\[\]|]+"


def arguments(text):
    """The arguments of `tie.spec`, each as text."""
    m = re.search(r"\btie\.spec\b", text)
    if not m:
        return None
    i, depth, found, word = m.end(), 0, [], ""
    while i < len(text):
        ch = text[i]
        if ch == "(":
            depth += 1
        if ch == ")":
            if depth == 0:
                break
            depth -= 1
        if depth == 0 and ch.isspace():
            if word:
                found.append(word)
            word = ""
            if ch == "\n" and i + 1 < len(text) and not text[i + 1].isspace():
                break
        else:
            word += ch
        i += 1
    if word:
        found.append(word)
    return found


def plain(word):
    return word.replace("_", "-").lower()


def chain(m, heads, bound):
    """Turns the last step of a chain that an arm binds."""
    steps = m[0].split(".")[1:]
    for i, step in enumerate(steps):
        if plain(step) in heads and i + 1 < len(steps):
            rest = "." + ".".join(steps[i:])
            turned = bound(re.match(r".*", rest))
            if turned != rest:
                return "".join("." + it for it in steps[:i]) + turned
    return m[0]


def relabel(text, of, path):
    said = []
    labels = {}
    for place in of["places"]:
        # What an arm's test says stands under the arm.
        if re.fullmatch(r"match\d*", place[2][0]):
            place[2][1] = f"{place[2][1]}.{place[2][1]}-own"
    for _, _, (old, new), *_ in of["places"]:
        if old:
            labels.setdefault(plain(old), set()).add(new)
    for (old, new), _ in of["loops"]:
        labels.setdefault(plain(old), set()).add(new)
    loops = {plain(old): new for (old, new), _ in of["loops"]}
    places = {plain(p[0]): new for p, new in zip(of["places"], of["places_by_name"])}
    given = arguments(text)
    goal_of = {}
    if given is None:
        said.append(f"{path}: no tie.spec")
    else:
        first = len(given) - len(of["needs"])
        # Of each loop an invariant and a measure, and what a recursion asks.
        if first < 0 or first not in (0, 1, *(2 * len(of["loops"]) + k for k in (-1, 0, 1))):
            said.append(f"{path}: {len(given)} answers for {len(of['needs'])} goals and {len(of['loops'])} loops: {[n[1] for n in of['needs']]}")
        else:
            for k, (_, new) in enumerate(of["needs"]):
                goal_of[given[first + k]] = new

    def signature(m):
        name, goal = m[1], m[2]
        return f"{name} : tie.Need-{goal_of[name]}" if name in goal_of else m[0]

    text = re.sub(r"(?m)^(\S+) : tie\.Need-([^\s()]+)", signature, text)

    # What an arm binds: by the arm, where it was by its steps.
    arms = {}
    for arm in of["arms"]:
        if arm:
            for new, old, way in arm[2]:
                arms.setdefault(".".join([plain(old), *way]), f"{arm[0]}.{new}")

    def bound(m):
        steps = m[0][1:].split(".")
        for n in range(len(steps), 0, -1):
            to = arms.get(".".join([plain(steps[0]), *steps[1:n]]))
            if to and n > 1:
                return "." + ".".join([to, *steps[n:]])
        return m[0]

    # Behind the word `before` too, which is dropped at the end.
    text = re.sub(r"(?:\.before)+(?![\w-])", "", text)
    heads = {key.split(".")[0] for key in arms}
    text = re.sub(r"\.([\w'-]+)((?:\.[\w'-]+)+)", lambda m: chain(m, heads, bound), text)

    # The labels known at each goal: those of its place and of the places before it.
    at = {}
    line = {p[0]: p for p in of["places"]}
    for (_, goal), (place, _) in zip(of["needs"], of["asked_at"]):
        here = {}
        while place:
            _, above, (old, new), *_ = line[place]
            if old:
                here.setdefault(plain(old), new)
            place = above
        at[goal] = here

    # What is passed: by its name in the source.
    passed = {old.split()[1][1:]: new.split()[1][1:] for old, new in of["args"] if old.startswith(".args ")}
    made = {"well-formed": "well_formed"}
    made.update({old[1:]: new[1:] for old, new in of["args"] if " " not in old})

    def block(text):
        lets = "|".join(["args", *re.findall(r"let (\S+) = [^\s()]*\bargs in", text)])
        of_args = re.compile(rf"(?<![\w'-])(?:{lets})$")
        m = re.match(r"(\S+) : tie\.Need-([^\s()]+)", text)
        here = at.get(m[2], {}) if m else {}

        def word(m):
            before, name = m[1], m[2]
            if re.search(r"(?m)^use [^\n]*$", text[: m.start(2)]):
                return m[0]
            for kind in ("invariant-", "decreases-"):
                if name.startswith(kind) and plain(name[len(kind):]) in loops:
                    return before + kind + loops[plain(name[len(kind):])]
            if before == "." and of_args.search(text[: m.start(1)][-60:]):
                return before + passed.get(name, name.replace("-", "_"))
            if before == "." and name in made:
                return before + made[name]
            if before == "." and (plain(name) in labels or plain(name) in here):
                news = [here[plain(name)]] if plain(name) in here else sorted(labels[plain(name)])
                if len(news) > 1:
                    said.append(f"{path}: {name} is {' or '.join(news)}")
                # A variable that came back from a call: not where it is an argument.
                if news == [name + "-1"] and not re.search(r"(?:^|[^\w.'-])c$", text[: m.start(1)][-200:]):
                    return m[0]
                return before + news[0]
            if plain(name) in places and (before == "." and text[: m.start(1)].endswith("tie") or re.match(r"(After|In|At|Then|Else)-|(Then|Else)\d", name)):
                return before + places[plain(name)]
            return m[0]

        return re.sub(rf"(^|[\s(){{}}.;,\[\]|])({WORD})", word, text, flags=re.M)

    text = "\n\n".join(block(it) for it in text.split("\n\n"))
    params = {new: of["params"].get(callee) for _, _, (_, new), callee, *_ in of["places"] if callee}

    def lent(m):
        k = m[2].count(".1")
        names = params.get(m[1])
        if not names or k >= len(names):
            said.append(f"{path}: {m[0]}: whose?")
            return m[0]
        return f".{m[1]}.new.{names[k]}"

    text = re.sub(rf"\.({WORD})\.new((?:\.1)*)\.0(?![\w])", lent, text)
    # What a call keeps of each reference that it is lent.
    def kept(block):
        m = re.match(r"(\S+) : tie\.Need-([^\s()]+)", block)
        lets = dict(re.findall(r"let (\S+) = [\w.'-]*\.([^\s.()]+) in", block))
        whose = None
        if m and "-requires" in m[2]:
            head = m[2].split("-requires")[0]
            whose = params.get(head) or params.get(m[2].replace("-requires", ""))
            if not whose:
                sames = {tuple(p) for new, p in params.items() if p and re.split(r"-", new)[0] == head.split("-")[0]}
                whose = list(sames.pop()) if len(sames) == 1 else None

        def by(m):
            head, k = m[1], m[2].count(".1")
            names = whose if head == "κs" else params.get(lets.get(head.rsplit(".auto", 1)[0].rsplit(".", 1)[-1], head.rsplit(".auto", 1)[0].rsplit(".", 1)[-1]))
            if not names or k >= len(names):
                said.append(f"{path}: {m[0]}: whose?")
                return m[0]
            return f"{head}.{names[k]}"

        return re.sub(r"((?<![\w.'-])κs|[\w.'-]+\.auto)((?:\.1)*)\.0(?![\w])", by, block)

    text = "\n\n".join(kept(it) for it in text.split("\n\n"))
    if re.search(r"\.branch(?![\w-])", text) and "⊎_elim" in text:
        text = re.sub(r"\.branch(?![\w-])", ".branch-raw", text)
        text = re.sub(r"(\.\d)\.taken(?![\w-])", r"\1.true", text)
        text = re.sub(r"(\.\d)\.left(?![\w-])", r"\1.false", text)
    # The test of an `if !x` is told of x.
    text = re.sub(r"\(not-(?:true|false) (?:_|\S+|\([^()]*\)) ([\w.'-]+\.(?:true|false))\)", r"\1", text)
    return re.sub(r"\bnot-(?:true|false) _ ([\w.'-]+\.(?:true|false))(?![\w.])", r"\1", text), said


def main():
    names, crates = sys.argv[1], sys.argv[2:]
    with open(os.path.join(names, "names.json"), encoding="utf-8") as f:
        known = json.load(f)
    for crate in crates:
        head = f"Rattle-{crate}-proofs."
        for key, of in known.items():
            if not key.startswith(head) or not key.endswith(".Lts"):
                continue
            path = os.path.join("crates", crate, "proofs", *key[len(head):-4].split("."), "Proof.antt")
            if not os.path.exists(path):
                continue
            with open(path, encoding="utf-8") as f:
                text = f.read()
            turned, said = relabel(text, of, path)
            for line in said:
                print("look: " + line)
            if turned != text:
                print(path)
                with open(path, "w", encoding="utf-8") as f:
                    f.write(turned)


if __name__ == "__main__":
    sys.exit(main())
