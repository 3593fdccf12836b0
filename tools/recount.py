#!/usr/bin/env python3
"""A second count of the places that docs/DESIGN-PASS.md speaks of, by other marks than tools/places.py.

    python3 tools/recount.py [-v | -r] [TREE]     -v prints each place, -r each place without a reason beside it

It goes by tokens, not by names: functions that are alike when their names are left out, matches that only turn one value into another, sentinels by what a
comment or a `return` says, pairs of a slice and a number by how the body uses them, lemmas that no file cites. A comment over the function or in the
file's head is taken for a reason where it has a word of WHY.
"""
import collections, glob, os, re, sys

WHY = re.compile(r"\b(since|because|so that|so (?:it|each|they|a|an|the|no|how)|C (?:is|reads|lends|hands|gets|has|calls)|for C\b|no (?:index|method|Result|Option|plainer)|the Rust|wire"
    r"|longer|asks|cost|slower|faster|times|ns\b|tried|prove|covered|cover|tells where|says where|lent|apart|by position|by value|own areas|crosse?s?|each .* tells|of fixed size"
    r"|anywhere|elsewhere|not one|two areas|one struct|as in )", re.I)
TOKEN = re.compile(r"b?'(?:\\.|[^'\\])'|b?\"(?:\\.|[^\"\\])*\"|[A-Za-z_]\w*!?|\d[\w_]*|::|->|=>|==|!=|<=|>=|&&|\|\||\.\.=?|[-+*/%&|^]=|\S")
KEYWORDS = set("as break const continue crate dyn else enum extern false fn for ghost if impl in let loop match mod move mut pub ref return self Self static struct trait true type"
    " unsafe use where while Some None Ok Err u8 u16 u32 u64 usize bool str Option Result requires ensures".split())

def plain(text):
    """The text with its comments blanked."""
    return re.sub(r"//[^\n]*", lambda m: " " * len(m.group(0)), text)

def closing(text, at):
    """Where the bracket that opens at `at` closes."""
    depth, quote = 0, None
    for m in TOKEN.finditer(text, at):
        t = m.group(0)
        if t in "([{": depth += 1
        elif t in ")]}":
            depth -= 1
            if depth == 0: return m.end()
    return len(text)

class Fn:
    """A function: its name, parameters, clauses, result, body and where it begins."""
    def __init__(self, text, m):
        self.name, self.at = m.group(2), m.start()
        self.indent = m.group(1)
        open_ = text.find("(", m.end(2))
        shut = closing(text, open_)
        end = re.compile(rf"^{self.indent}\}}$", re.M).search(text, shut)
        stop = end.end() if end else len(text)
        body = re.compile(rf"(^{self.indent}\{{$)|(\{{[^\n{{}}]*$)|(\{{ .* \}}$)", re.M)
        rest = text[shut:stop]
        one = re.match(r"[^\n]*;\s*$", rest.split("\n")[0])
        start = None if one else re.search(rf"^{self.indent}\{{$", rest, re.M) or re.search(r"\{\s*$", rest.split("\n")[0]) or re.search(r"\{[^\n]*\}$", rest, re.M)
        self.head = rest[:start.start()] if start else rest.split("\n")[0]
        self.body = rest[start.start():] if start else ""
        self.body_at = shut + (start.start() if start else 0)
        self.params = re.findall(r"(?:mut )?(\w+): ((?:&'?\w*\s*)?(?:mut )?[^,]+?)(?:,|$)", re.sub(r"\s+", " ", text[open_ + 1:shut - 1]))
        result = re.match(r"\s*->\s*([^{\n]+?)\s*(?:\{|$|\n)", self.head)
        self.result = result.group(1) if result else ""

def functions(text):
    for m in re.finditer(r"^([ \t]*)(?:pub(?:\([\w ]+\))? )?(?:const )?(?:extern \"C\" )?fn (\w+)", text, re.M):
        yield Fn(text, m)

def skeleton(body):
    """The body with its names numbered in the order in which they come, and its literals left out."""
    seen, out = {}, []
    for m in TOKEN.finditer(body):
        t = m.group(0)
        if t in KEYWORDS or not re.match(r"[\w'\"]|b['\"]", t):
            out.append({"u8": "T", "u16": "T", "u32": "T", "u64": "T", "usize": "T"}.get(t, t))
        elif re.match(r"\d|b?['\"]", t):
            out.append("#")
        else:
            out.append(f"n{seen.setdefault(t, len(seen))}")
    return " ".join(out)

def beside(text, at):
    """The comments right over a place, in the function that it is in up to the place, and the file's head."""
    lines = text[:at].split("\n")
    over, i = [], len(lines) - 1
    own = lines[-1]
    while i > 0 and len(over) < 12:
        i -= 1
        s = lines[i].strip()
        if s.startswith("//") or s.startswith("#[") or not over and s == "":
            over.append(s)
        elif over or s == "" : break
        else: break
    head = []
    for l in text.split("\n"):
        if l.startswith("//"): head.append(l)
        else: break
    return " ".join(over), " ".join(head)

def main():
    args = [a for a in sys.argv[1:] if not a.startswith("-")]
    tree = args[0] if args else "."
    places = collections.defaultdict(list)
    shapes, groups, clauses = collections.defaultdict(list), collections.defaultdict(dict), collections.defaultdict(dict)
    for path in sorted(glob.glob(os.path.join(tree, "crates/*/src/**/*.rt"), recursive=True)):
        crate = path.split("/crates/")[1].split("/")[0] if "/crates/" in path else path.split("/")[1]
        file = f"{crate}/{path.split('/src/')[1]}"
        text = open(path).read()
        code = plain(text)
        c_side = crate.startswith("c_") or crate.endswith("_c")

        def put(point, at, what, text=text, file=file):
            over, head = beside(text, text.rfind("\n", 0, at) + 1)
            why = bool(WHY.search(over)) or bool(WHY.search(head))
            places[point].append((f"{file}:{text.count(chr(10), 0, at) + 1}", what, why))

        # 1: enums, sentinels, flags, codes
        for m in re.finditer(r"^\s*(?:pub )?enum (\w+)[^{;]*\{(.*?)^\s*\}", code, re.M | re.S):
            variants = re.findall(r"^\s+(\w+)\s*(\([^)]*\)|\{[^}]*\})?\s*(?:= *\d+)?,", m.group(2), re.M)
            full = [v for v, data in variants if data]
            if 2 <= len(variants) <= 3 and len(full) == 1:
                put("1a an enum with one case that holds a value", m.start(), m.group(1))
            elif len(variants) == 2 and len(full) == 2:
                put("1a an enum of two cases that both hold a value", m.start(), m.group(1))
        for m in re.finditer(r"^[ \t]*//[^\n]*", text, re.M):
            if re.search(r"\b(0|the length|the end|its end|as many|the number of|the last|u64::MAX|2\^64)\b[^.;]{0,60}\b(for none|where (?:there is|it has|it is) none|if there is none|stands for none|where none)\b"
                    r"|\bnone\b[^.;]{0,25}\bis (?:0|the length)\b|\b0 (?:if|where) (?:it|there|no)\b|\bor 0\b", m.group(0)):
                put("1b a comment that tells of a sentinel", m.start(), m.group(0).strip()[:110])
        for f in functions(code):
            low = f.result.strip()
            if re.match(r"\((?:[^()]*, *)?(?:bool|u8)\b[^()]*\)$", low):
                put("1c a flag or code in a tuple that is answered", f.at, f"{f.name} -> {low}")
            if low in ("u8", "u32", "u64", "usize") and not c_side:
                ends = re.findall(r"\breturn (\d[\d_]*|\w+::MAX|\w+\.len\(\));|^\s+(\d[\d_]*|\w+::MAX|\w+\.len\(\))$", f.body, re.M)
                if ends:
                    put("1b a function that ends in a fixed number or a length", f.at, f"{f.name} -> {low}: {', '.join(a or b for a, b in ends)}")
            for m in re.finditer(r"\.unwrap_or\((\w+::MAX|\d+|\w+\.len\(\))\)", f.body):
                put("1b a sentinel in place of None", f.body_at + m.start(), f"{f.name}: {m.group(0)}")
            for m in re.finditer(r"if (?:let true\b|[\w.]+\.is_(?:some|ok|none|err)\(\))", f.body):
                if re.search(r"\.unwrap\(|\.expect\(|\.unwrap_or", f.body[m.end():m.end() + 200]):
                    put("1d a test of an Option or Result, and its value taken after it", f.body_at + m.start(), f.name)
            # 3
            for m in re.finditer(r"\b(while|loop)\b(?=[^;]*\{)", f.body):
                put("3 a `while` or `loop`", f.body_at + m.start(), f.name)
            for m in re.finditer(r"\bfor ([\w(), ]+) in ([^{]*)\{", f.body):
                inner = f.body[m.end():closing(f.body, m.end() - 1)]
                if re.search(r"^\s*(\w+) (?:\+= 1|= \1\.(?:saturating|wrapping)_add\(1\)|= \1 \+ 1);", inner, re.M):
                    put("3 a `for` that counts beside its own index", f.body_at + m.start(), f.name)
                index = m.group(1).strip()
                if re.match(r"\w+$", index) and ".." in m.group(2) and index != "_":
                    uses = re.findall(rf"\b{index}\b", inner)
                    subs = re.findall(rf"\w\[{index}\]", inner)
                    if uses and len(uses) == len(subs):
                        put("3 a `for` over an index that only picks elements", f.body_at + m.start(), f.name)
            # 4
            for m in re.finditer(r"\bmatch ([^{]+)\{", f.body):
                inner = f.body[m.end():closing(f.body, m.end() - 1) - 1]
                arms = [a.strip() for a in re.split(r",\s*\n|\n(?=\s*[\w:|&_]+.*=>)", inner) if "=>" in a]
                value = r"(?:[A-Za-z_][\w:]*|\d[\w_]*|b?'[^']*'|b?\"[^\"]*\")"
                simple = [a for a in arms if re.fullmatch(rf"(?:{value}|_)(?:\(\w*\)|\(_\))?(?: \| {value}(?:\(_\))?)* => {value}(?:\(\w+\))?", a)]
                if len(arms) >= 2 and len(simple) == len(arms) and not re.search(r"=> (?:return|continue|break)", inner):
                    put("4 a match that only turns one value into another", f.body_at + m.start(), f"{f.name}: match {m.group(1).strip()}")
            both = re.findall(r"(\w+)\.(\w+) (?:==|!=) (\w+)\.\2\b", f.body)
            if len(both) >= 2:
                put("4 fields compared one by one", f.at, f"{f.name}: {', '.join(b[1] for b in both)}")
            copied = re.fullmatch(r"\{\s*(?:Self|\w+) \{((?:[^{}]|\{[^{}]*\})*)\}\s*\}", f.body.strip(), re.S)
            if copied and len(f.params) <= 1:
                froms = collections.Counter(re.findall(r"\b(\w+)\.\w+", copied.group(1)))
                if froms and froms.most_common(1)[0][1] >= 3:
                    put("4 a record made of another's fields", f.at, f.name)
            # 6
            slices = [n for n, t in f.params if re.search(r"\[", t)]
            for n, t in f.params:
                if t.strip() in ("usize", "u32", "u64") and any(re.search(rf"\b{s}\[(?:\.\.|[\w.]+\.\.){n}\b|\b{s}\.get(?:_mut)?\((?:\.\.|[\w.]+\.\.){n}\)", f.body) for s in slices):
                    put("6 a slice and the number of its elements that count", f.at, f"{f.name}: {n}")
            pairs = set()
            for i in set(re.findall(r"\w\[(\w+)\]", f.body)):
                if not i.isdigit() and not i.isupper():
                    ss = set(re.findall(rf"\b(\w+)\[{i}\]", f.body))
                    if len(ss) >= 2: pairs.add((i, ", ".join(sorted(ss))))
            for i, ss in sorted(pairs):
                put("6 arrays by one index", f.at, f"{f.name}: {ss} at {i}")
            # 7
            for m in re.finditer(r"\bmatch (\*?\w+(?:\.\w+)*) \{", f.body):
                inner = f.body[m.end():closing(f.body, m.end() - 1) - 1]
                arms = re.findall(r"^\s+((?:b?'[^']*'|b?\"[^\"]*\"|\d[\w_]*|[A-Z][A-Z_0-9]+|\w+::[A-Z][A-Z_0-9]*)(?: \| [^=]+)?) => (.*)", inner, re.M)
                if len(arms) >= 2 and sum("(" in a[1] or a[1].strip() == "{" for a in arms) >= 2:
                    put("7 steps chosen by a number, a letter or a word", f.body_at + m.start(), f"{f.name}: match {m.group(1)}")
            for m in re.finditer(r": (?:&?'?\w* ?)?fn\(|Box<dyn|&dyn|&mut dyn", f.body + " ".join(": " + t for _, t in f.params)):
                put("7 a function pointer or dyn value", f.at, f.name)
            # 2, 5
            if len(TOKEN.findall(f.body)) >= 24:
                shapes[skeleton(f.body)].append((put, f.at, f.name))
            names = [n for n, _ in f.params if n not in ("rt",)]
            for i in range(len(names)):
                for j in range(i + 1, len(names)):
                    for k in range(j + 1, len(names)):
                        groups[tuple(sorted((names[i], names[j], names[k])))][(file, f.at)] = (put, f.at, f.name)
            for i in range(len(names) - 1):
                if {"out", "at"} == {names[i], names[i + 1]}:
                    groups[("out", "at")][(file, f.at)] = (put, f.at, f.name)
            for c in re.findall(r"requires(?: \w+)? \{ (.*?) \}$", f.head, re.M):
                clauses[re.sub(r"\.(now|old)\b", "", c)][(file, f.at)] = (put, f.at, f.name)
        for m in re.finditer(r"^(?:pub )?struct (\w+)[^{;]*\{(.*?)^\}", code, re.M | re.S):
            fields = re.findall(r"^\s+(?:pub )?(\w+): ([^,\n]+),", m.group(2), re.M)
            arrays = [n for n, t in fields if "[" in t]
            if arrays and any(re.fullmatch(r"len|count|used|n|size|filled|queued|\w+_(?:len|count)", n) for n, t in fields):
                put("6 a record with a buffer and how much of it counts", m.start(), m.group(1))
            if any(t == "bool" or t == "u8" for _, t in fields) and len(fields) >= 2 and not c_side:
                put("1c a record with a flag or a byte beside a value", m.start(), f"{m.group(1)}: {', '.join(n for n, t in fields if t in ('bool', 'u8'))}")
        if not c_side:
            run = re.findall(r"(?:^[ \t]*(?:pub )?const \w+: (?:u8|u32|usize|u64) = \d[\d_]*;\s*){3,}", code, re.M)
            for r in run:
                put("1c three or more numbers as constants in a row", code.find(r), " ".join(re.findall(r"const (\w+)", r))[:90])
    for shape, found in shapes.items():
        if len(found) > 1:
            for put, at, name in found:
                put("2 functions alike but for names and numbers", at, f"{name} x {len(found)}")
    inside = set()
    for names, found in sorted(groups.items(), key=lambda g: -len(g[1])):
        if len(found) >= 4:
            key = frozenset(found)
            if key in inside: continue
            inside.add(key)
            put, at, name = next(iter(found.values()))
            put("5a parameters in any order that four functions share", at, f"{', '.join(names)} x {len(found)}")
    for clause, found in clauses.items():
        if len(found) >= 3:
            put, at, name = next(iter(found.values()))
            put("5b clauses of requires that three functions share", at, f"{clause[:90]} x {len(found)}")
    antt = {p: open(p).read() for p in glob.glob(os.path.join(tree, "crates/*/*/**/*.antt"), recursive=True) if "/out/" not in p}
    words = collections.Counter(w for t in antt.values() for w in re.findall(r"[^\s(){}\[\],;.`]+", re.sub(r"^--.*", "", t, flags=re.M)))
    for p, t in sorted(antt.items()):
        if "/proofs/" not in p or os.path.basename(p) in ("Answers.antt", "Invariants.antt"): continue
        for m in re.finditer(r"^( *)(?:pub )?([\w'≤<≡-]+) : ", t, re.M):
            n = m.group(2)
            own = len(re.findall(rf"^{m.group(1)}(?:pub |abbrev |unfoldable )*{re.escape(n)}(?= |$)", t, re.M))
            if words[n] <= own and not n.startswith("theorem"):
                places["8 names of proofs/ that no other line has"].append((f"{os.path.relpath(p, tree)}:{t.count(chr(10), 0, m.start()) + 1}", n, "/theorem_" in p or "/model_" in p))
    for p in sorted(antt):
        if p.endswith("Proof.antt"): places["8 proofs that walk the code by hand"].append((os.path.relpath(p, tree), "", False))
    for point in sorted(places):
        bare = [p for p in places[point] if not p[2]]
        print(f"{point}: {len(places[point])}, without a reason {len(bare)}")
        for w, what, why in places[point]:
            if "-v" in sys.argv or "-r" in sys.argv and not why:
                print(f"    {'  ' if why else '! '}{w} {what}")

main()
