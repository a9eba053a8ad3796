"""Which field of a command's record says something at which exit status, and the records that these fields speak of."""

import re
import sys

from contracts import CRATES

STATUSES = range(10)

# The records of a command, in the order of their commands, and where they are.
ANSWERS = CRATES / "program_call/specs/Answers.antt"
COMMANDS = ["AnswersRun", "RunsScript", "RunsGenerated", "RecoversLogs", "AnswersReplay", "AnswersNothing"]

# What is said of the logs there, of one and of several.
OVER_LOGS = [CRATES / f"program_call/specs/{name}.antt" for name in ("OneLog", "SeveralLogs")]

# The crates whose records say what a run leaves; of `model_base` those of an outcome.
CALLED = {"program_call", "run_execution", "run_outcome", "model_runs", "run_laws"}
OF_OUTCOMES = {"Outcomes", "Runs", "Replies", "Trace", "Groups", "Attempts", "Tokens", "LogContents"}

# What a field asks of the status, and what it says of it where it says no more.
OF_STATUS = r"(?:\(?status ≡ \d\)?(?: ⊎ )?)+|status ≢ \d"
ASKED = re.compile(rf"({OF_STATUS}) → ")
SAID = re.compile(r"(→ |^)[^→]*?((?:\(status ≡ \d\)(?: ⊎ )?)+|status ≡ \d|\(status < 10\) × \(status ≢ \d\))\)*$")

HEAD = """## What is said at which status

The fields of each command's record in `program_call/specs/Answers`, as `tools/statements --statuses` reads them:

- `says`: at this status the field says something.
- `no`: the field says that this status doesn't come; `no, if`: so it is under a premise.
- An empty cell: the field says nothing of this status, or another one says that it doesn't come.

In `RunsScript`, which `runs` is, are the fields of `run` and `gen`."""


def comment_of(lines):
    """The text of the comment that these lines end in."""
    kept = []
    for line in reversed(lines):
        if not line.strip().startswith("--"):
            break
        kept.append(line.strip()[2:].strip())
    text = " ".join(reversed(kept))
    return text[:1].upper() + text[1:] + ("" if not text or text.endswith((".", "!", "?")) else ".")


def definitions(file):
    """The definitions of a file, by their names: of each its comment, whether it is a record, and its lines."""
    found, before, indent, name = {}, [], 0, ""
    for line in file.read_text(encoding="utf-8").split("\n"):
        depth, is_comment = len(line) - len(line.lstrip()), line.lstrip().startswith("--")
        head = re.match(r" *(?:pub )?(record|abbrev|data) (?:pub )?(\w+)", line)
        if head:
            indent, name = depth, head[2]
            found[name] = comment_of(before), head[1] == "record", [line]
        elif line and depth <= indent and not is_comment and not line.lstrip().startswith(f"{name} "):
            name = ""
        elif name:
            found[name][2].append(line)
        before.append(line)
    return found


def fields(lines):
    """The fields of a record: names, comment and type."""
    start = next((at for at, line in enumerate(lines) if line.endswith("where")), len(lines)) + 1
    found, indent = [], 0
    for at, line in enumerate(lines[start:], start):
        match = re.match(r"( *)(?:pub )?([\w ]+?) : (.*)", line)
        indent = indent or len(line) - len(line.lstrip())
        if match and len(match[1]) == indent:
            found.append([match[2], comment_of(lines[start:at]), match[3]])
        elif found and line and not line.strip().startswith("--"):
            found[-1][2] += " " + line.strip()
    return found


def statuses_in(text):
    """The statuses that a condition allows."""
    others = {int(it) for it in re.findall(r"status ≢ (\d)", text)}
    return set(STATUSES) - others if others else {int(it) for it in re.findall(r"status ≡ (\d)", text)}


def row_of(type_):
    """What a field with this type says of each status."""
    asked, said = ASKED.match(type_), SAID.search(type_)
    if re.search("status [≡≢<]", type_) and not asked and not said:
        sys.exit(f"statuses: not read: {type_}")
    about = statuses_in(asked[1]) if asked else set(STATUSES)
    if not said:
        return {at: "says" for at in about}
    return {at: "no, if" if said[1].strip() else "no" for at in about - statuses_in(said[2])}


def table_of(lines):
    """The table of a command's record."""
    rows = [(names, row_of(type_)) for names, _, type_ in fields(lines)]
    never = {at for _, row in rows for at, word in row.items() if word == "no"}
    yield "| Field | " + " | ".join(map(str, STATUSES)) + " |"
    yield "|---" * 11 + "|"
    for names, row in rows:
        cells = ["" if at in never and row.get(at) != "no" else row.get(at, "") for at in STATUSES]
        yield f"| `{names}` | " + " | ".join(cells) + " |"


def brought(text):
    """What the `use` lines of a file of definitions bring: for each name the file that it is in."""
    found = {}
    for crate, path, names in re.findall(r"(?m)^use Rattle\.(\w+)\.specs\.([\w.]+?)\.?\{([^}]*)\}", text):
        file = CRATES / crate / "specs" / (path.replace(".", "/") + ".antt")
        found.update((name.split(" as ")[0].strip(), file) for name in names.split(",") if file.is_file())
    return found


def is_shown(file):
    crate = file.relative_to(CRATES).parts[0]
    return crate in CALLED or crate == "model_base" and file.stem in OF_OUTCOMES


def reached():
    """The records that the commands' fields speak of, each with its file, its comment and its fields, from the top."""
    read, seen = {}, set()
    queue = [(ANSWERS, name) for name in COMMANDS]
    queue += [(file, name) for file in OVER_LOGS for name in definitions(file)]
    while queue:
        file, name = queue.pop(0)
        if file not in read:
            read[file] = definitions(file), brought(file.read_text(encoding="utf-8"))
        own, used = read[file]
        if (file, name) in seen or name not in own:
            continue
        seen.add((file, name))
        comment, is_record, lines = own[name]
        if is_record and not (file == ANSWERS and name in COMMANDS):
            yield file, name, comment, fields(lines)
        words = re.findall(r"\w+", "\n".join(line for line in lines if not line.strip().startswith("--")))
        queue += [(file, word) if word in own else (used[word], word) for word in dict.fromkeys(words)
                  if word in own or word in used and is_shown(used[word])]


def section():
    """The section of the page."""
    parts, own = [HEAD], definitions(ANSWERS)
    for name in COMMANDS:
        comment, _, lines = own[name]
        parts += [f"`{name}`. {comment}", "\n".join(table_of(lines))]
    parts.append("The records that these fields speak of, from the commands down, each with its fields:")
    lines = []
    for file, name, comment, its in reached():
        path = file.relative_to(CRATES)
        lines.append(f"- `{name}` ([{path.parts[0]}, {path.stem}](../crates/{path})): {comment}".rstrip())
        lines.append("  - " + ", ".join(f"`{names}`" for names, _, _ in its) + ".")
        lines += [f"  - `{names}`: {said}" for names, said, _ in its if said]
    return "\n\n".join(parts) + "\n\n" + "\n".join(lines)
