"""What the faces of the card share beside the calls, and where it differs: tests/declared prints it.

The numbers given back, with names and meanings, in card.h, in what bailhammer.h prints and in rust/card, and with names alone in rust/reference
and the source; the conditions of a place; the settings that have a name, which are of the older rule; the versions, that of the record with its
layout; a struct in bailhammer.h for each call that tells; what comments of definitions quote of card.h; the programs that the READMEs show, and the
kit that README names.
"""
import re

HEADER = "crates/card/card.h"
STRUCTS = "crates/card/bailhammer*.h"
WRAPPERS = "rust/card/src/*.rs"
REFUSED = "rust/card/src/refused.rs"
REFERENCE = "rust/reference/src/lib.rs"
PLANS = "crates/cut/src/plans.rt"
REFERENCE_PLANS = "rust/reference/src/plan.rs"
FILLED = "crates/card/src/blocks.rt"
CONDITIONS = "crates/places_rules/src/lib.rt"
LAYOUT = "crates/packed_rules/specs/Packed.antt"
DEFINITIONS = "crates/*/specs/**/*.antt"
KIT = "kit.txt"
# a page, the language of the one program in it, and the file whose program that is
SHOWN = [("README.md", "c", "c/first.c"), ("rust/README.md", "rust", "rust/card/examples/first.rs")]

# the figures of a place in each layout of the record, in their order, each with its bytes: the last one is that of today
LAYOUTS = ["condition 1, number 2, count 4, fec 1, rsk 1, rsz 1, size 2, last 2"]
VERSIONS = ["RECORD_LAYOUT", "VERSION"]
# the settings that have a name, the house default and that for two losses: in the source, and in C and Rust
SETTINGS = [("house", "HOUSE"), ("two_losses", "TWO_LOSSES")]
# what C writes for a word of Rattle and Rust; by the older rule means that `newer` is no
IN_C = {"true": "1", "false": "0", "Older": "0", "Newer": "1"}
OLDER = IN_C["Older"]


class Fault(Exception):
    pass


def figures(root):
    """The header's macros that are one number, and Rust's constants."""
    return (dict(re.findall(r"^#define (BAILHAMMER_\w+) (\d+)\s*(?:/\*.*)?$", (root / HEADER).read_text(), flags=re.M)),
            dict(found for path in root.glob(WRAPPERS) for found in re.findall(r"const (\w+): usize = ([\d_]+);", path.read_text())))


def apart(what, one, other):
    """What differs between two places, each a name and a table."""
    (here, ours), (there, theirs) = one, other
    for key in sorted(ours.keys() | theirs.keys()):
        if ours.get(key) != theirs.get(key):
            yield f"{what} {key}: is {ours.get(key)} in {here}, but {theirs.get(key)} in {there}"


def enumerated(root, enum, prefix):
    """An enum of the header: each name with its value and the comment behind it."""
    body = re.search(rf"enum {enum} \{{(.*?)\n\}};", (root / HEADER).read_text(), flags=re.S)
    rows = re.findall(rf"^    {prefix}(\w+) = (\d+),?\s*/\* (.*) \*/$", body[1] if body else "", flags=re.M)
    if not rows or len(rows) != body[1].count("\n"):
        raise Fault(f"{HEADER}: cannot read every line of enum {enum}")
    return {name: (int(number), said) for name, number, said in rows}


def numbers(root):
    """The numbers given back, where their names, values or meanings differ."""
    header = enumerated(root, "bailhammer_number", "BAILHAMMER_")
    meanings = {name: said for name, (_, said) in header.items()}
    printed = {name: said.replace('\\"', '"') for path in sorted(root.glob(STRUCTS)) for name, said in
               re.findall(r'case BAILHAMMER_(\w+): return "\1: (.*)";', path.read_text())}
    yield from apart("meaning", (HEADER, meanings), (STRUCTS, printed))
    refusals = {name: row for name, row in header.items() if 0 < row[0] < 256}
    rust = {name: (int(number), re.sub(r"\\\n\s*", "", said).replace('\\"', '"')) for name, number, said in
            re.findall(r'^    (\w+) = (\d+), "((?:[^"\\]|\\.|\\\n)*)";$', (root / REFUSED).read_text(), flags=re.M)}
    yield from apart("number", (HEADER, refusals), (REFUSED, rust))
    papers = {name: int(number) for name, number in re.findall(r"pub const (\w+): u8 = (\d+);", (root / REFERENCE).read_text())}
    yield from apart("number", (HEADER, {name: row[0] for name, row in refusals.items()}), (REFERENCE, papers))
    words = re.findall(r"Filled::(\w+) => (\d+)", (root / FILLED).read_text())
    filled = {re.sub("(?<=[a-z])(?=[A-Z])", "_", name).upper(): int(number) for name, number in words}
    yield from apart("number", (HEADER, {name: row[0] for name, row in header.items() if name not in refusals}), (FILLED, filled))


def conditions(root):
    """The conditions of a place, where the header's are not the source's."""
    header = {name: row[0] for name, row in enumerated(root, "bailhammer_condition", "BAILHAMMER_PLACE_").items()}
    source = {name: int(n) for name, n in re.findall(r"^pub const (\w+): u8 = (\d+);", (root / CONDITIONS).read_text(), flags=re.M)}
    yield from apart("condition", (HEADER, header), (CONDITIONS, source))


def literal(body, **given):
    """The fields of settings as Rattle and Rust write them, each with what C writes; one with no value of its own has the one given."""
    rows = re.findall(r"(\w+)(?:: (?:\w+::)?(\w+))?", body)
    return {name: IN_C.get(value, value.replace("_", "")) if value else given.get(name) for name, value in rows}


def macro(header, name):
    """The figures of settings in the header, under the names of the parameters that they stand for."""
    order = re.findall(r"^size_t bailhammer_plan\(size_t (\w+), size_t (\w+), size_t (\w+), size_t (\w+),", header, flags=re.M)
    figures = re.findall(rf"^#define BAILHAMMER_{name} (\w+), (\w+), (\w+), (\w+)$", header, flags=re.M)
    none = {"address": "None"} if "#define BAILHAMMER_NO_ADDRESS 0, 0, 0\n" in header else {}
    return [dict(zip(("rule" if one == "newer" else one for one in names), row)) | none for names in order for row in figures]


def settings(root):
    """The settings that have a name, where source, header and both cards in Rust have not the same, or not the older rule."""
    source, header, reference = ((root / path).read_text() for path in (PLANS, HEADER, REFERENCE_PLANS))
    rust = "".join(path.read_text() for path in sorted(root.glob(WRAPPERS)))
    shared = re.findall(r"\bSettings \{([^{}]*)\}", source)
    for function, name in SETTINGS:
        losses = re.findall(rf"fn {function}\(\)[^}}]*\}}\s*\{{\s*set_for\((\w+), (\w+)\)\s*\}}", source)
        constant = rf"pub const {name}: Settings =\s*Settings \{{([^{{}}]*)\}};"
        found = {PLANS: [literal(body, m=m, mtu=mtu) for body in shared for m, mtu in losses], HEADER: macro(header, name),
                 WRAPPERS: [literal(body) for body in re.findall(constant, rust)],
                 REFERENCE_PLANS: [literal(body) for body in re.findall(constant, reference)]}
        ours = found[PLANS]
        if len(ours) != 1 or ours[0].get("rule") != OLDER or any(one != ours for one in found.values()):
            yield f"the settings {name} are not alike, or not of the older rule: " + ", ".join(f"{one} in {path}" for path, one in found.items())


def layout(root):
    """The versions, where the header's are not Rust's, or where the record is laid out otherwise than its version says."""
    defined, wrapped = figures(root)
    ours = {name: defined.get(f"BAILHAMMER_{name}") for name in VERSIONS}
    yield from apart("version", (HEADER, ours), (WRAPPERS, {name: wrapped.get(name) for name in VERSIONS}))
    body = re.search(r"^figures_of p =(.*?)\n\n", (root / LAYOUT).read_text(), flags=re.S | re.M)
    laid = re.findall(r"bytes_of (\d+) p\.(\w+)|p\.(\w+)", body[1] if body else "")
    said = ", ".join(f"{name or single} {width or 1}" for width, name, single in laid)
    if ours["RECORD_LAYOUT"] != str(len(LAYOUTS)) or said != LAYOUTS[-1]:
        yield f"the record's layout {ours['RECORD_LAYOUT']} is not the one in {LAYOUT}: {said}"


def structs(root):
    """The calls that tell, or leave a walk, and have no struct."""
    text = "".join(path.read_text() for path in sorted(root.glob(STRUCTS)))
    for call, parameters in re.findall(r"^size_t (bailhammer_\w+)\(([^)]*)\);", (root / HEADER).read_text(), flags=re.M):
        if re.search(r"uint8_t \*(told|walker)\b", parameters) and not re.search(rf"= {call}\(", text):
            yield f"{call}: {STRUCTS} does not call it, and has no struct of what it leaves"


def quoted(root):
    """What comments of definitions quote of card.h, where it does not stand there."""
    header = re.sub(r"\s+(?:\* )?", " ", (root / HEADER).read_text())
    for path in sorted(root.glob(DEFINITIONS)):
        lines = re.findall(r"^ *-- .*?card\.h(.*)$", path.read_text(), flags=re.M)
        for quote in re.findall(r'"([^"]+)"', "\n".join(lines)):
            if quote not in header:
                yield f"{path.relative_to(root)}: quotes '{quote}', which {HEADER} does not say"


def shown(root):
    """The pages that do not show the program that they name, all but the comment at its head."""
    for page, language, path in SHOWN:
        programs = re.findall(rf"^```{language}\n(.*?)^```$", (root / page).read_text(), flags=re.S | re.M)
        if [program.strip() for program in programs] != [(root / path).read_text().split("\n", 1)[1].strip()]:
            yield f"{page}: the program that it shows is not that of {path}"
    kit = re.sub(r"^#.*\n", "", (root / KIT).read_text(), flags=re.M).strip()
    if f"`{kit}`" not in (root / SHOWN[0][0]).read_text():
        yield f"{SHOWN[0][0]}: does not name the kit of {KIT}, '{kit}'"


def differing(root):
    return [*numbers(root), *conditions(root), *settings(root), *layout(root), *structs(root), *quoted(root), *shown(root)]
