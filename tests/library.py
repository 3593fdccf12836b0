#!/usr/bin/env python3
"""What include/wizhdulet.h must say, read from the crates' own text.

library.py declarations   a C file that declares every exported function again and holds records, numbers and limits to those of the crates: it compiles
                          exactly if the header has them with these types, offsets and values
library.py names          the exported functions, by the names that they have in libwizhdulet.a
library.py header         the functions that the header declares
library.py version        whether the header's records, signatures and numbers are those recorded for its version, tests/interface/MAJOR.MINOR; from 1.0 on a later one
                          of the same major must have all of an earlier one's
library.py record         records them for a version that has none yet
"""
import pathlib
import re
import sys

ROOT = pathlib.Path(__file__).resolve().parent.parent
NUMBERS = {"u8": "uint8_t", "u16": "uint16_t", "u32": "uint32_t", "u64": "uint64_t", "usize": "size_t"}
# The modules whose constants and the enums whose numbers the header has, by its prefix.
CONSTANTS = [
    ("base_refusals", "Refusal", "WZ_REFUSED_"),
    ("frame_fields", "kind", "WZ_KIND_"),
    ("frame_fields", "Part", "WZ_PART_"),
    ("frame_fields", "NackReason", "WZ_REASON_"),
    ("frame_op", "kind", "WZ_CHANGE_"),
]


def source(crate):
    return (ROOT / "crates" / crate / "src" / "lib.rt").read_text()


def home(name, crate):
    """The crate that declares a type, found by the `use` lines."""
    text = source(crate)
    if re.search(rf"^pub struct {name}\b", text, re.M):
        return crate
    for found, several, one in re.findall(r"^(?:pub )?use (\w+)::(?:\{([^}]*)\}|(\w+));", text, re.M):
        if name in re.findall(r"\w+", several) + [one]:
            return home(name, found)
    sys.exit(f"library.py: {crate} doesn't say where {name} is from")


def record(name, crate):
    """The fields of a record, as pairs of name and type; one of a newtype has no name."""
    crate = home(name, crate)
    text = source(crate)
    newtype = re.search(rf"^#\[repr\(C\)\]\n(?:#\[derive\([\w, ]*\)\]\n)?pub struct {name}\(pub (\w+)\);", text, re.M)
    if newtype:
        return crate, [(None, newtype[1])]
    body = re.search(rf"^#\[repr\(C\)\]\n(?:#\[derive\([\w, ]*\)\]\n)?pub struct {name} {{\n(.*?)^}}", text, re.M | re.S)
    if not body:
        sys.exit(f"library.py: {name} of {crate} has no layout for C")
    return crate, re.findall(r"^    pub (\w+): (\w+),", body[1], re.M)


def header_name(name):
    return "wz_" + re.sub(r"(?<!^)([A-Z])", r"_\1", name).lower() + "_t"


def scalar(kind, crate):
    """The C type of a number, also of one in a record of its own; None of other records."""
    if kind in NUMBERS:
        return NUMBERS[kind]
    crate, fields = record(kind, crate)
    return scalar(fields[0][1], crate) if fields[0][0] is None else None


def parameter(name, kind, crate):
    lent = re.fullmatch(r"&(mut )?\[(\w+)(?:; (\d+))?\]", kind)
    if lent:
        element = f"{'' if lent[1] else 'const '}{scalar(lent[2], crate) or header_name(lent[2])}"
        return [f"{element} [{lent[3]}]"] if lent[3] else [element + " *", "size_t"]
    lent = re.fullmatch(r"&mut (\w+)", kind)
    if lent:
        return [header_name(lent[1]) + " *"]
    return [scalar(kind, crate) or header_name(kind)]


def exports():
    """Every exported function: its crate, its name in the archive, its parameters and its result."""
    for path in sorted((ROOT / "crates").glob("*/src/*.rt")):
        text = path.read_text()
        found = re.findall(r'^#\[unsafe\(no_mangle\)\]\npub extern "C" fn (\w+)\((.*?)\)(?: -> (\w+))?\n', text, re.M | re.S)
        if len(found) != text.count("no_mangle"):
            sys.exit(f"library.py: {path} has an exported function of a form that isn't known")
        for name, parameters, result in found:
            name = "wz_standby_make" if name == "make" else name if name.startswith("wz_") else "wz_" + name
            yield path.parent.parent.name, name, re.findall(r"(\w+): ([^,]+?)\s*(?:,|$)", parameters), result


def header_functions():
    """The functions that the header declares, with the names of their parameters."""
    text = re.sub(r"/\*.*?\*/", "", (ROOT / "include/wizhdulet.h").read_text(), flags=re.S)
    for name, parameters in re.findall(r"^\w[\w ]* \*?(wz_\w+)\((.*?)\);", text, re.M | re.S):
        yield name, [re.search(r"(\w+)(?:\[\w+\])?$", p.strip())[1] for p in parameters.split(",") if p != "void"]


def interface(header):
    """What a program compiled with a header relies on: all that it declares and defines but the version, a line each."""
    text = re.sub(r"/\*.*?\*/", "", header, flags=re.S)
    text = re.sub(r"^#ifdef __cplusplus\n.*?^#endif\n", "", text, flags=re.M | re.S)
    text = text[: text.index("#define WZ_LAYOUT")] if "#define WZ_LAYOUT" in text else text
    defined = re.findall(r"^#define (WZ_(?!VERSION)\w+.*)", text, re.M)
    declared = re.sub(r"^#.*\n", "", text, flags=re.M)
    declared = re.findall(r"[^;{]*(?:\{[^}]*\}[^;]*)?;", declared)
    return [" ".join(line.split()) for line in defined + declared]


def header_version(header):
    return tuple(int(re.search(rf"#define WZ_VERSION_{part} (\d+)", header)[1]) for part in ("MAJOR", "MINOR"))


def recorded(version):
    return ROOT / "tests/interface" / "{}.{}".format(*version)


def version():
    header = (ROOT / "include/wizhdulet.h").read_text()
    now = header_version(header)
    if not recorded(now).exists() or recorded(now).read_text().splitlines() != interface(header):
        sys.exit(f"library.py: the header has other records, signatures or numbers than version {now[0]}.{now[1]}: raise the version in VERSION, the header and crates/c_version, and run tests/library.py record")
    versions = sorted(tuple(map(int, path.name.split("."))) for path in recorded(now).parent.iterdir())
    for earlier, later in zip(versions, versions[1:]):
        lost = set(recorded(earlier).read_text().splitlines()) - set(recorded(later).read_text().splitlines())
        if lost and 0 < earlier[0] == later[0]:
            sys.exit(f"library.py: version {later[0]}.{later[1]} hasn't all of {earlier[0]}.{earlier[1]}, so its major must be raised: {min(lost)}")


def record_version():
    header = (ROOT / "include/wizhdulet.h").read_text()
    path = recorded(header_version(header))
    if path.exists():
        sys.exit(f"library.py: {path.relative_to(ROOT)} is there: a version that is recorded doesn't change")
    path.parent.mkdir(exist_ok=True)
    path.write_text("\n".join(interface(header)) + "\n")


def constants(crate, block):
    body = "".join(re.findall(rf"^pub (?:mod|enum) {block} {{\n(.*?)^}}", source(crate), re.M | re.S))
    numbered = [(re.sub(r"(?<!^)([A-Z])", r"_\1", name).upper(), value) for name, value in re.findall(r"^    (\w+) = (\d+),", body, re.M)]
    return numbered + re.findall(r"pub const (\w+): u8 = (\d+);", body)


def declarations():
    records = {}
    print("#include <stddef.h>\n#include <wizhdulet.h>\n#define HOLDS(is) _Static_assert(is, #is)")
    functions = []
    named = dict(header_functions())
    for crate, name, parameters, result in exports():
        called = [word for what, kind in parameters for word in ([what, what + "_len"] if re.fullmatch(r"&(mut )?\[\w+\]", kind) else [what])]
        if named.get(name) != called:
            sys.exit(f"library.py: the parameters of {name} are {', '.join(called)}; the header has {', '.join(named.get(name, ['none']))}")
        types = [kind for what, kind in parameters] + ([result] if result else [])
        for kind in types:
            bare = re.sub(r"&(mut )?\[?|[;\]].*", "", kind)
            if bare not in NUMBERS and not scalar(bare, crate):
                records[bare] = home(bare, crate)
        listed = [c for what, kind in parameters for c in parameter(what, kind, crate)]
        functions.append(f"{(scalar(result, crate) or header_name(result)) if result else 'void'} {name}({', '.join(listed) or 'void'});")
    # A record within a record comes first.
    order = []

    def visit(name, crate):
        crate, fields = record(name, crate)
        for _, kind in fields:
            if not scalar(kind, crate):
                visit(kind, crate)
        if name not in [n for n, _ in order]:
            order.append((name, crate))

    for name, crate in records.items():
        visit(name, crate)
    for name, crate in order:
        _, fields = record(name, crate)
        told = header_name(name)
        print(f"struct {name} {{")
        for field, kind in fields:
            print(f"    {scalar(kind, crate) or 'struct ' + kind} {field};")
        print(f"}};\nHOLDS(sizeof({told}) == sizeof(struct {name}));")
        for field, _ in fields:
            print(f"HOLDS(offsetof({told}, {field}) == offsetof(struct {name}, {field}));")
            print(f"HOLDS(sizeof((({told} *)0)->{field}) == sizeof(((struct {name} *)0)->{field}));")
    told = set()
    for crate, block, prefix in CONSTANTS:
        found = constants(crate, block)
        if not found:
            sys.exit(f"library.py: {crate} has no constants in {block}")
        for name, value in found:
            told.add(prefix + name)
            print(f"HOLDS({prefix}{name} == {value});")
    told_of = set(re.findall(r"^\| (\d+) \|", (ROOT / "docs/REFUSALS.md").read_text(), re.M))
    named_of = set(re.findall(r"WZ_REFUSED_\w+ = (\d+)", (ROOT / "include/wizhdulet.h").read_text()))
    if told_of != named_of:
        sys.exit(f"library.py: docs/REFUSALS.md and the header differ in {' '.join(sorted(told_of ^ named_of))}")
    more = set(re.findall(r"\bWZ_(?:REFUSED|KIND|PART|REASON|CHANGE)_\w+", (ROOT / "include/wizhdulet.h").read_text())) - told - {"WZ_KIND_NONE"}
    if more:
        sys.exit(f"library.py: the header names what no crate has: {' '.join(sorted(more))}")
    for name, of in (("MAX_BYTES", "WZ_MAX_C"), ("MAX_MESSAGES", "WZ_MAX_M")):
        value = re.search(rf"pub const {name}: u32 = ([\d_]+);", source("store_areas"))[1].replace("_", "")
        print(f"HOLDS({of} == {value});")
    for name, value in zip(("MAJOR", "MINOR", "PATCH"), (ROOT / "VERSION").read_text().strip().split(".")):
        print(f"HOLDS(WZ_VERSION_{name} == {value});")
    print("\n".join(functions))


def main():
    if sys.argv[1:] == ["declarations"]:
        declarations()
    elif sys.argv[1:] == ["names"]:
        print("\n".join(sorted(name for _, name, _, _ in exports())))
    elif sys.argv[1:] == ["header"]:
        print("\n".join(sorted(name for name, _ in header_functions())))
    elif sys.argv[1:] == ["version"]:
        version()
    elif sys.argv[1:] == ["record"]:
        record_version()
    else:
        sys.exit(__doc__)


main()
