#!/usr/bin/env python3
"""Counts, crate by crate, the places in src/ that docs/DESIGN-PASS.md speaks of.

    python3 tools/places.py [-v] [TREE]     the places of each point; -v prints each place
"""
import collections, glob, os, re, sys

def functions(text):
    """(name, signature with clauses, body, line) of each function."""
    for m in re.finditer(r'^([ \t]*)(?:pub )?(?:extern "C" )?fn (\w+)', text, re.M):
        indent = m.group(1)
        end = re.compile(r'^' + indent + r'\}$', re.M).search(text, m.end())
        one = text.find('\n', m.end())
        stop = end.end() if end else len(text)
        open_brace = re.compile(r'(^' + indent + r'\{$)|(\) (?:-> [^\n{]*)?\{[^\n]*$)', re.M).search(text, m.start(), stop)
        cut = open_brace.start() if open_brace else one
        yield m.group(2), text[m.start():cut], text[cut:stop], text.count('\n', 0, m.start()) + 1

def enums(text):
    for m in re.finditer(r'^(?:pub )?enum (\w+)[^{]*\{\n(.*?)^\}', text, re.M | re.S):
        names = re.findall(r'^    (\w+)\b', re.sub(r'//[^\n]*', '', m.group(2)), re.M)
        yield m.group(1), names, text.count('\n', 0, m.start()) + 1

NONE = {'Bad', 'Short', 'Nothing', 'Nobody', 'InvalidAreas', 'Refused', 'Unreadable', 'TooLong', 'NoRoom', 'More', 'Diverges', 'Fault', 'Faulty', 'Missing', 'Invalid', 'Done', 'Absent'}

def c_side(crate):
    return crate.startswith('c_') or crate.endswith('_c')

def main():
    args = [a for a in sys.argv[1:] if a != '-v']
    verbose = '-v' in sys.argv
    tree = args[0] if args else '.'
    places = collections.defaultdict(list)
    signatures, clauses, shapes = collections.defaultdict(list), collections.defaultdict(list), collections.defaultdict(list)
    for path in sorted(glob.glob(os.path.join(tree, 'crates/*/src/*.rt'))):
        crate = path.split('/')[-3]
        text = open(path).read()
        code = re.sub(r'//[^\n]*', lambda m: ' ' * len(m.group(0)), text)
        where = lambda n: f'{crate}/{os.path.basename(path)}:{n}'
        line = lambda at: text.count('\n', 0, at) + 1
        for name, variants, n in enums(text):
            if NONE & set(variants) and not name.endswith('Error') and name != 'Refusal':
                places['1a enums of the shape of Option or Result'].append((where(n), name))
        for m in re.finditer(r'^    (?:pub )?(refusal|done|due|lost|whole|digits|found|kind|reason|has_\w+|stores|clears|nack|flag|used|listed|checked|promoted): (u8|bool)', code, re.M):
            places['1b flags and number codes as fields beside a value'].append((where(line(m.start())), m.group(0).strip()))
        for m in re.finditer(r'^\s*(?:pub )?const (\w+): u8 = \d+', code, re.M):
            places['1c numbered kinds and refusals (constants)'].append((where(line(m.start())), m.group(1)))
        for name, sig, body, n in functions(text):
            if not c_side(crate) and re.search(r'-> u8\b', sig) and re.search(r'[A-Z_]{6,}|return [0-9]+;|Refusal', body):
                places['1d functions that answer a number code'].append((where(n), name))
            shape = re.sub(r'\b(u8|u16|u32|u64|usize)\b', 'T', re.sub(r'\b[A-Z][A-Z_0-9]{2,}\b|\b\d[\d_]*\b', 'N', re.sub(r'\s+', ' ', body)))
            shape = re.sub(r'\b(\w*?)(8|16|32|64|1|2|4)(_\w+)?\b', r'\1#\3', shape)
            if len(shape) > 60:
                shapes[shape].append((where(n), name))
            bare = re.sub(r'\s+', ' ', body)
            if re.fullmatch(r'\{ match \*?\w+(?:\.\w+)* \{(?: [\w:]+(?:\([^)]*\)|\{[^}]*\})? => [\w:]+(?:\([\w, ]*\))?,)+ \} \}', bare):
                places['4 conversions and comparisons written by hand'].append((where(n), name))
            elif re.match(r'(same|is_equal|equal|copy|byte_of|flag_of|flag|number_of)(_|$)', name) and not c_side(crate):
                places['4 conversions and comparisons written by hand'].append((where(n), name))
            params = re.findall(r'(\w+): (&?(?:mut )?[\w\[\]]+)', re.sub(r'requires.*|ensures.*', '', sig, flags=re.S))
            for i in range(len(params) - 2):
                signatures[tuple(p[0] for p in params[i:i + 3])].append((where(n), name))
            if any(t.startswith('&') and '[' in t for _, t in params) and any(p in ('len', 'n', 'count', 'used', 'max', 'cap') for p, _ in params):
                places['6 buffers with a length or count beside'].append((where(n), name))
            for c in re.findall(r'requires(?: \w+)? \{ (.*) \}', sig):
                clauses[c].append((where(n), name))
            for m in re.finditer(r'\bwhile\b', re.sub(r'//[^\n]*', '', body)):
                at = body.count('\n', 0, m.start())
                if re.search(r'(\w+) [+-]= ', body[m.start():]):
                    places['3 loops that count by hand'].append((where(n + at), name))
                else:
                    places['3b other while loops'].append((where(n + at), name))
            for m in re.finditer(r'match (?:\w+\.)?(k|kind|part|which)\b', body):
                places['7 switches on which step to run'].append((where(n), name))
    for shape, group in shapes.items():
        if len(group) > 1:
            places['2 twins: functions of one shape'] += group
    for s, group in signatures.items():
        if len(group) >= 3:
            places['5a parameters that travel together (groups of three, in three functions or more)'].append((group[0][0], ', '.join(s) + f' x {len(group)}'))
    for c, group in clauses.items():
        if len(group) >= 3:
            places['5b clauses of requires that three functions or more share'].append((group[0][0], c + f' x {len(group)}'))
    old = glob.glob(os.path.join(tree, 'crates/*/proofs/**/Proof.antt'), recursive=True)
    for p in sorted(old):
        places['8 proofs that walk the code by hand (Proof.antt)'].append((os.path.relpath(p, tree), ''))
    for key in sorted(places):
        print(f'{key}: {len(places[key])}')
        if verbose:
            for w, n in places[key]:
                print(f'    {w} {n}')

main()
