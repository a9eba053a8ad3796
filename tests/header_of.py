"""Whether `library/wolzenn.h` has the numbers, types and arguments of the proved functions in `crates/wolzenn_c`: the
header is written by hand, and no contract speaks of it. And which functions it has, and a page's table names.
"""

import re
from collections import Counter
from pathlib import Path

from outcomes import ROOT

CRATE = Path(ROOT, "crates/wolzenn_c/src")
HEADER = Path(ROOT, "library/wolzenn.h")

TYPES = {"": "void", "u8": "uint8_t", "u32": "uint32_t", "u64": "uint64_t", "usize": "size_t"}
# Types of the header that are numbers of 32 bits, and those that are a handle.
NUMBERS = dict.fromkeys(("wz_code", "wz_why", "wz_mode", "wz_kind", "wz_tag"), "uint32_t")
HANDLES = ("wz_handle", "wz_reader", "wz_scan", "wz_recovery", "wz_batch")
SLICES = {"&[u8]": "const void *, size_t", "&mut [u8]": "void *, size_t"}

CONSTANT = re.compile(r"pub const ([A-Z_]+): u32 = (\d+);")
REASON = re.compile(r"(?:EndReason|Damage)::(\w+)(?:\(_\)| \{ \.\. \})? => (\d+),")
MODE = re.compile(r"(\d+) => (?:Some\()?Mode::(\w+)")
STRUCT = re.compile(r"#\[repr\(C\)\]\n(?:#\[[^\n]*\]\n)*pub struct (Wz\w+) \{\n(.*?)\n\}", re.S)
EXPORT = re.compile(r'pub (?:unsafe )?extern "C" fn (wz_\w+)\((.*?)\)(?: -> (\w+))?\s', re.S)
ENUMERATOR = re.compile(r"\bWZ_([A-Z_0-9]+) = (\d+)\b")
C_STRUCT = re.compile(r"typedef struct (wz_\w+) \{(.*?)\} wz_\w+;", re.S)
C_FUNCTION = re.compile(r"^(?:WZ_ANSWER )?(\w+) (wz_\w+)\(([^)]*)\)[^;{]*;", re.M)


def words_of(name):
    """The words of a name that is written as a type's, between `_`."""
    return re.sub(r"(?<=[a-z])(?=[A-Z])", "_", name).lower()


def type_of(written):
    return TYPES.get(written) or words_of(written)


def arguments_of(written):
    """The name and the type in C of each argument of an export: a slice is two of them."""
    found = []
    for name, kind in re.findall(r"(\w+): ((?:&mut |&)?(?:\[u8\]|\w+))", written):
        if kind == "&mut WzHandle":
            found.append((name, "handle"))
        elif kind != "Global":
            pointer = " *" if kind.startswith("&mut ") else ""
            found.append((name, SLICES.get(kind) or f"{type_of(kind.removeprefix('&mut '))}{pointer}"))
    return named_where_needed(found)


def c_arguments_of(written):
    """The same of a declaration of the header."""
    found = []
    for const, kind, star, name in re.findall(r"(const )?(\w+) (\*?)(\w+)", written):
        if kind == "size_t" and not star and found and found[-1][1].endswith("void *"):
            found[-1] = found[-1][0], f"{found[-1][1]}, size_t"
        elif kind in HANDLES:
            found.append((name, "handle"))
        else:
            found.append((name, f"{const}{NUMBERS.get(kind, kind)}{' *' if star else ''}"))
    return named_where_needed(found)


def named_where_needed(arguments):
    """The types of arguments, and the names of those that could be taken for each other."""
    many = Counter(kind for _, kind in arguments)
    return [(name if many[kind] > 1 and kind != "handle" else "", kind) for name, kind in arguments]


def of_crate():
    """Numbers, structs and functions by their names in the header."""
    text = "\n".join(it.read_text() for it in sorted(CRATE.glob("*.rt")))
    found = {name: int(number) for name, number in CONSTANT.findall(Path(CRATE, "codes.rt").read_text())}
    found |= {f"WHY_{words_of(name).upper()}": int(number) for name, number in REASON.findall(text)}
    found |= {f"MODE_{name.upper()}": int(number) for number, name in MODE.findall(text)}
    for name, fields in STRUCT.findall(text):
        if name != "WzHandle":
            found[words_of(name)] = [(it, type_of(kind)) for it, kind in re.findall(r"pub (\w+): (\w+)", fields)]
    for name, arguments, result in EXPORT.findall(text):
        found[name] = arguments_of(arguments), type_of(result)
    return found


def of_header(text):
    text = re.sub(r"/\*.*?\*/", "", text, flags=re.S)
    found = {name: int(number) for name, number in ENUMERATOR.findall(text)}
    for name, fields in C_STRUCT.findall(text):
        found[name] = [(it, NUMBERS.get(kind, kind)) for kind, it in re.findall(r"(\w+) (\w+);", fields)]
    for result, name, arguments in C_FUNCTION.findall(text):
        found[name] = c_arguments_of(arguments), NUMBERS.get(result, result)
    return found


def functions_of(text):
    """The names of the header's functions."""
    text = re.sub(r"/\*.*?\*/", "", text, flags=re.S)
    return re.findall(r"^(?:static inline |WZ_ANSWER |const )*\w+ \*?(wz_\w+)\(", text, re.M)


def functions_named(page):
    """The names in the first column of the page's table of functions."""
    table = page.split("| Functions |", 1)[1].split("\n\n", 1)[0]
    return [name for row in table.splitlines() for name in re.findall(r"`(wz_\w+)`", row.split("|")[1])]


def differences(text):
    """Each name of the crate with what it and this text of the header have, where these differ."""
    header = of_header(text)
    return [(name, own, header.get(name)) for name, own in of_crate().items() if own != header.get(name)]
