"""What the code says of its functions: their comments, the names of their clauses, and how they may fail."""

import re
from dataclasses import dataclass
from pathlib import Path

TOP = Path(__file__).resolve().parent.parent
CRATES = TOP / "crates"

# What a clause without a name of its own is called.
UNNAMED = "the clause"

FUNCTION = re.compile(r'(?:pub(?:\(\w+\))? )?(?:extern "C" )?fn (\w+)')


@dataclass
class Clause:
    # `requires` or `ensures`
    kind: str
    name: str
    # the comment right above it, or nothing
    comment: str


@dataclass
class Function:
    crate: str
    file: Path
    # The trait and the type of the block that it is in, each empty where there is none.
    trait: str
    type: str
    name: str
    is_public: bool
    # Whether programs in other languages call it.
    is_export: bool
    doc: str
    # The type of what it answers.
    answer: str
    clauses: list

    @property
    def owner(self):
        """The type that has it, or else the trait."""
        return self.type or self.trait

    @property
    def path(self):
        return f"{self.owner}::{self.name}" if self.owner else self.name

    def names(self):
        return {clause.name for clause in self.clauses}


def crate_names():
    """The crates, from the definitions up."""
    lines = (TOP / "crates.txt").read_text().split("\n")
    return [line.split(":")[0].split()[0] for line in lines if ":" in line and not line.startswith("#")]


def without_generics(text):
    """A text without what is in angle brackets."""
    depth, kept = 0, []
    for letter in text.replace("->", ""):
        depth += letter == "<"
        if not depth:
            kept.append(letter)
        depth -= letter == ">"
    return "".join(kept)


def owners_of(head):
    """The trait and the type of a block with this head."""
    words = [word.split("::")[-1].strip(":") for word in without_generics(head.rstrip("{} ")).split()]
    words = [word for word in words if word not in ("pub", "unsafe")]
    if words[0] == "trait":
        return words[1], ""
    return (words[1], words[3]) if "for" in words else ("", words[1])


def comment_above(lines, at, mark):
    """The comment right above a line: its paragraphs, each as one line. Attributes may come between."""
    while at > 0 and lines[at - 1].strip().startswith("#["):
        at -= 1
    end = at
    while at > 0 and re.match(rf"\s*{mark}(?!/)", lines[at - 1]):
        at -= 1
    said = "\n".join(line.strip()[len(mark) :].strip() for line in lines[at:end])
    return "\n".join(" ".join(part.split()) for part in re.split(r"\n{2,}", said))


def head_of(lines, at):
    """The lines of the function that begins at a line, up to its body."""
    indent = re.match(r"\s*", lines[at])[0]
    depth = 0
    for end in range(at, len(lines)):
        line = lines[end]
        if not depth and line in (indent + "{", indent + "{}"):
            return lines[at:end]
        begins = end == at or line.startswith((indent + ")", indent + ">"))
        depth += line.count("{") - line.count("}")
        if begins and re.search(r" \{\}?$", line) or not depth and line.endswith(";"):
            return lines[at : end + 1]
    return lines[at:]


def clauses_of(head):
    """The clauses in the head of a function."""
    indent = re.match(r"\s*", head[0])[0] + "    "
    for place, line in enumerate(head):
        match = re.match(rf"{indent}(requires|ensures\*?)(?: (\w+))? \{{", line)
        if match:
            yield Clause(match[1].rstrip("*"), match[2] or UNNAMED, comment_above(head, place, "//"))


def answer_of(head):
    """The type of what a function answers, from its head."""
    text = re.split(r"(?m)^\s*(?:where$|requires\b|ensures\b|//)", "\n".join(head))[0]
    text = text.rstrip(";{} \n")
    depth = 0
    for at in range(len(text) - 1, -1, -1):
        depth += text[at] == ")"
        depth -= text[at] == "("
        if not depth and text.startswith("->", at):
            return " ".join(text[at + 2 :].split())
        if not depth and re.match(r"fn \w+", text[at:]):
            break
    return ""


def functions_of(file):
    """All functions of a file, in its order."""
    lines = file.read_text().splitlines()
    trait = type_ = ""
    for at, line in enumerate(lines):
        if re.match(r"(?:pub )?(?:unsafe )?(?:impl|trait)\b", line):
            end = next(end for end in range(at, len(lines)) if re.search(r"\{\}?$", lines[end]))
            trait, type_ = owners_of(" ".join(lines[at : end + 1]))
        elif line == "}":
            trait = type_ = ""
        match = FUNCTION.match(line.lstrip())
        if match:
            head = head_of(lines, at)
            yield Function(
                crate=file.relative_to(CRATES).parts[0],
                file=file,
                trait=trait,
                type=type_,
                name=match[1],
                is_public=line.lstrip().startswith("pub ") or bool(trait),
                is_export='extern "C"' in line,
                doc=comment_above(lines, at, "///"),
                answer=answer_of(head),
                clauses=list(clauses_of(head)),
            )


def functions(crate):
    """All functions of a crate, file by file."""
    return [it for file in sorted((CRATES / crate / "src").rglob("*.rt")) for it in functions_of(file)]


def handed_out(crate):
    """The names that a crate hands out: what its root file declares as public, or names in a `pub use`."""
    root = CRATES / crate / "src/lib.rt"
    text = root.read_text() if root.is_file() else ""
    named = re.findall(r"(?m)^pub use [\w:]+::(?:\{([^}]*)\}|(\w+));", text)
    names = {name.strip() for many, one in named for name in (many or one).split(",") if name.strip()}
    return names | set(re.findall(r"(?m)^pub (?:fn|struct|enum|trait) (\w+)", text))


def public_functions(crate):
    """The functions that a crate hands out: also those of the types and the traits that it hands out, and exports."""
    names = handed_out(crate)
    for function in functions(crate):
        is_named = (function.owner or function.name) in names
        if function.is_public and (is_named or function.is_export):
            yield function


def variants():
    """Of each public enum, by its crate and its name, the names of its cases."""
    found = {}
    for file in sorted(CRATES.glob("*/src/**/*.rt")):
        for match in re.finditer(r"(?m)^pub enum (\w+).*\{\n((?:.*\n)*?)\}$", file.read_text()):
            crate = file.relative_to(CRATES).parts[0]
            found[crate, match[1]] = re.findall(r"(?m)^    (\w+)", match[2])
    return found
