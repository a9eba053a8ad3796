"""What `wzlog` should print of a log, by docs/WZLOG.md and RocksDB's db/write_batch.cc, and nothing of the program's own.

`listing` in this folder compares the program with it. It reads fragments by `plain_log.py`. Called as a program it is a
plain `wzlog`: `python3 tests/plain_listing.py list LOG --text`. It says nothing on standard error.
"""

import argparse
import sys

from plain_log import BLOCK, FIRST, FULL, LAST, End, NoBatch, accepts, fragment_at, fragment_of_code, header_len
from plain_log import length_at, number_of, recover_into

# The tags: the word, whether a family is named, how many strings follow, and whether the operation takes a sequence.
TAGS = {
    0x00: ("delete", False, 1, True),
    0x01: ("put", False, 2, True),
    0x02: ("merge", False, 2, True),
    0x03: ("logdata", False, 1, False),
    0x04: ("delete", True, 1, True),
    0x05: ("put", True, 2, True),
    0x06: ("merge", True, 2, True),
    0x07: ("singledelete", False, 1, True),
    0x08: ("singledelete", True, 1, True),
    0x09: ("beginprepare", False, 0, False),
    0x0A: ("endprepare", False, 1, False),
    0x0B: ("commit", False, 1, False),
    0x0C: ("rollback", False, 1, False),
    0x0D: ("noop", False, 0, False),
    0x0E: ("deleterange", True, 2, True),
    0x0F: ("deleterange", False, 2, True),
    0x10: ("blobindex", True, 2, True),
    0x11: ("blobindex", False, 2, True),
    0x12: ("beginpersistedprepare", False, 0, False),
    0x13: ("beginunprepare", False, 0, False),
    0x15: ("committimestamp", False, 2, False),
    0x16: ("putentity", False, 2, True),
    0x17: ("putentity", True, 2, True),
    0x18: ("timedput", False, 2, True),
    0x19: ("timedput", True, 2, True),
}
RANGES = (0x0E, 0x0F)
GREATEST = 2**64 - 1


# ---- what a record shows


def operations_of(body):
    """The operations of bytes, each a tag, a family or None, and strings; and what is wrong after them, or None."""
    operations, place = [], 0
    try:
        while place < len(body):
            tag, family, strings = body[place], None, []
            if tag not in TAGS:
                raise NoBatch(f"tag {tag}")
            _, names_one, count, _ = TAGS[tag]
            at = place + 1
            if names_one:
                family, at = length_at(body, at)
            for _ in range(count):
                length, at = length_at(body, at)
                if at + length > len(body):
                    raise NoBatch("short")
                strings.append(body[at : at + length])
                at += length
            operations.append((tag, family, strings))
            place = at
    except NoBatch as fault:
        return operations, str(fault)
    return operations, None


def shown_of(record):
    """The sequence and the count of a record, or None; its operations; and its fault, or None."""
    if len(record) < 12:
        return None, [], "short"
    said = number_of(record[8:12])
    operations, fault = operations_of(record[12:])
    found = sum(TAGS[tag][3] for tag, _, _ in operations)
    if fault is None and said != found:
        fault = f"count {said} {found}"
    return (number_of(record[:8]), said), operations, fault


# ---- what a scan finds


def next_record(log, place, number):
    """The record from a place on, its start and its end; or End."""
    begun, parts, at, size = None, [], place, header_len(number)
    while at < len(log):
        left = BLOCK - at % BLOCK
        if left < size:
            if any(log[at : at + left]):
                raise End(at, "badtrailer")
            at += left
            continue
        kind, data = fragment_at(log, at, number)
        if (kind in (FULL, FIRST)) != (begun is None):
            raise End(at, "badorder")
        begun = at if begun is None else begun
        parts.append(data)
        at += size + len(data)
        if kind in (FULL, LAST):
            return b"".join(parts), begun, at
    if begun is not None:
        raise End(begun, "unfinished")
    raise End(len(log), "clean")


def is_damaged(log, at, number):
    """Whether there is damage at a place of the log."""
    left = BLOCK - at % BLOCK
    if left < header_len(number):
        return any(log[at : at + left])
    if at >= len(log):
        return False
    try:
        fragment_at(log, at, number)
    except End:
        return True
    return False


def is_compressed(log):
    """Whether the first fragment is a whole one of kind 9 (RocksDB's `kSetCompressionType`), whose header has 7 bytes."""
    end = 7 + number_of(log[4:6])
    return 7 <= len(log) and end <= min(BLOCK, len(log)) and log[:end] == fragment_of_code(9, log[7:end])


def resumes_at(log, at, why, number):
    """Where reading is tried again after it has ended, or None."""
    size, header = header_len(number), log[at : at + header_len(number)]
    if why in ("clean", "unfinished") or (at == 0 and is_compressed(log)):
        return None
    if why == "badorder":
        kind = header[6] - (0 if number is None else 4)
        place = at if kind in (FULL, FIRST) else at + size + number_of(header[4:6])
    else:
        place = next_block = at - at % BLOCK + BLOCK
        if len(header) == size:
            end = at + size + number_of(header[4:6])
            if end < next_block and not is_damaged(log, end, number):
                place = end
    return place if place < len(log) else None


def scan_of(log, number, goes_on):
    """What is found: records as (start, end, bytes), and stretches that don't read as (from, to, at, why); and the end."""
    items, place, here, lost = [], 0, 0, None
    while True:
        try:
            record, start, end = next_record(log, here, number)
        except End as ended:
            at, why = ended.args
            lost = lost or (at, why)
            later = resumes_at(log, at, why.split()[0], number) if goes_on else None
            if later is None:
                return items, *lost
            here = later
            continue
        if lost:
            items.append((place, start, *lost))
        items.append((start, end, record))
        place = here = end
        lost = None


def own_number(log):
    """The number in the first header, if it has one and a fragment reads there with it."""
    number = number_of(log[7:11]) if len(log) >= 11 and 5 <= log[6] <= 8 else None
    return None if number is None or is_damaged(log, 0, number) else number


def number_for(log, said):
    """The number with which a log is read: the one that is said, and otherwise its own."""
    return own_number(log) if said is None else said


# ---- words and lines


def escaped(text, escape):
    return "".join(
        "\\\\" if byte == 92 else chr(byte) if 32 <= byte <= 126 and byte != 34 else f"{escape}{byte:02x}" for byte in text
    )


class Form:
    """A form: plain or JSON, hexadecimal or text."""

    def __init__(self, json, text):
        self.json, self.text = json, text

    def word(self, value):
        if self.json:
            return '"' + (escaped(value, "\\u00") if self.text else value.hex()) + '"'
        return '"' + escaped(value, "\\x") + '"' if self.text else value.hex() or "-"

    def operation(self, tag, family, strings):
        word, words = TAGS[tag][0], [self.word(string) for string in strings]
        if not self.json:
            return " ".join(["  " + word, *([] if family is None else [f"family {family}"]), *words]) + "\n"
        named = "" if family is None else f',"family":{family}'
        pairs = "".join(f',"{name}":{value}' for name, value in zip(("key", "value"), words))
        return f'{{"tag":{tag},"kind":"{word}"{named}{pairs}}}'

    def record(self, start, end, size, head, operations, fault):
        lines = [self.operation(*operation) for operation in operations]
        if not self.json:
            said = "" if head is None else f" sequence {head[0]} count {head[1]}"
            wrong = "" if fault is None else f"  fault {fault}\n"
            return f"record {start} {end} size {size}{said}\n" + "".join(lines) + wrong
        said = "" if head is None else f',"sequence":{head[0]},"count":{head[1]}'
        wrong = "" if fault is None else f',"fault":"{fault}"'
        all_of = ",".join(lines)
        return f'{{"record":{start},"end":{end},"size":{size}{said},"operations":[{all_of}]{wrong}}}\n'

    def two(self, name, first, second):
        return f'{{"{name}":[{first},{second}]}}\n' if self.json else f"{name} {first} {second}\n"

    def unread(self, start, end, at, why):
        if self.json:
            return f'{{"unread":[{start},{end}],"at":{at},"why":"{why}"}}\n'
        return f"unread {start} {end} {at} {why}\n"

    def end(self, at, why):
        return f'{{"end":{at},"why":"{why}"}}\n' if self.json else f"end {at} {why}\n"

    def front(self):
        if self.json:
            return '{"shown":"not recovered"}\n'
        return "shown, not recovered: what follows damage may be of another history\n"


# ---- the commands


def is_about(key, tag, strings):
    if not TAGS[tag][3] or not strings:
        return False
    return strings[0] <= key < strings[1] if tag in RANGES else strings[0] == key


def last_of(head):
    return head[0] + max(head[1] - 1, 0)


def chosen(record, first, last, key):
    """The head, the operations and the fault of a record that is shown, or None."""
    head, operations, fault = shown_of(record)
    if head is not None and not (head[0] <= last and first <= last_of(head)):
        return None
    if key is not None:
        operations = [it for it in operations if is_about(key, it[0], it[2])]
        if not operations:
            return None
    return head, operations, fault


def between(form, before, head):
    if before is None or head is None or head[1] == 0:
        return ""
    if head[0] <= before:
        return form.two("order", head[0], before)
    return form.two("gap", before + 1, head[0] - 1) if before + 1 < head[0] else ""


def listing_of(log, number=None, first=0, last=GREATEST, key=None, form=Form(False, False), goes_on=False):
    """What `list` prints of a log, and with `goes_on` what `scan` does."""
    items, at, why = scan_of(log, number_for(log, number), goes_on)
    text, before = [form.front()] if goes_on else [], None
    for item in items:
        if len(item) == 4:
            text.append(form.unread(*item))
            continue
        start, end, record = item
        shown = chosen(record, first, last, key)
        head = shown_of(record)[0]
        if shown:
            text.append(between(form, before, head) if goes_on else "")
            text.append(form.record(start, end, len(record), *shown))
        if head is not None and head[1] > 0:
            before = last_of(head) if before is None else max(before, last_of(head))
    return "".join(text) + form.end(at, why)


def summary_of_log(log, number=None, first=0, last=GREATEST, key=None, form=Form(False, False), goes_on=False):
    """What `list --summary` or `scan --summary` prints of a log."""
    items, at, why = scan_of(log, number_for(log, number), goes_on)
    records, sequences, tallies, stretches, size = 0, [], {}, 0, 0
    for item in items:
        if len(item) == 4:
            stretches, size = stretches + 1, size + item[1] - item[0]
            continue
        shown = chosen(item[2], first, last, key)
        if not shown:
            continue
        head, operations, _ = shown
        records += 1
        if head is not None and head[1] > 0:
            first_one, greatest = sequences or (head[0], 0)
            sequences = [first_one, max(greatest, last_of(head))]
        for tag, family, _ in operations:
            tallies[tag, family] = tallies.get((tag, family), 0) + 1
    text = [form.front()] if goes_on else []
    if form.json:
        text.append(f'{{"records":{records}}}\n{{"sequences":[{",".join(map(str, sequences))}]}}\n')
    else:
        text.append(f"records {records}\nsequences {' '.join(map(str, sequences)) or 'none'}\n")
    for (tag, family), count in tallies.items():
        if form.json:
            named = "" if family is None else f',"family":{family}'
            text.append(f'{{"kind":"{TAGS[tag][0]}"{named},"count":{count}}}\n')
        else:
            named = "" if family is None else f" family {family}"
            text.append(f"{TAGS[tag][0]}{named} {count}\n")
    if goes_on:
        text.append(f'{{"unread":{stretches},"bytes":{size}}}\n' if form.json else f"unread {stretches} {size}\n")
    return "".join(text) + form.end(at, why)


def state_of(log, number=None, form=Form(False, False)):
    """What `state` prints of a log, and where and why recovery ends."""
    groups, pairs = [], {}
    last, at, why = recover_into(groups, pairs, log, number_for(log, number))
    rows, groups = sorted(pairs.items()), [line.split() for line in groups]
    if form.json:
        text = [f'{{"groups":{len(groups)}}}\n']
        text += [f'{{"sequence":{first},"count":{count},"size":{size}}}\n' for first, count, size in groups]
        text.append(f'{{"last":{last},"keys":{len(rows)}}}\n')
        for (family, key), value in rows:
            named = f'"family":{family},' if family else ""
            text.append(f'{{{named}"key":{form.word(key)},"value":{form.word(value)}}}\n')
    else:
        text = [f"groups {len(groups)}\n"]
        text += [f"{first} {count} {size}\n" for first, count, size in groups]
        text.append(f"state {last} {len(rows)}\n")
        for (family, key), value in rows:
            text.append(f"{f'{family} ' if family else ''}{form.word(key)} {form.word(value)}\n")
    return "".join(text) + form.end(at, why), at, why


def key_of(word, text):
    """The key that a word spells."""
    if not text:
        return b"" if word == "-" else bytes.fromhex(word)
    key, place, given = bytearray(), 0, word.encode()
    while place < len(given):
        if given[place : place + 2] == b"\\\\":
            key, place = key + b"\\", place + 2
        elif given[place : place + 2] == b"\\x":
            key, place = key + bytes.fromhex(given[place + 2 : place + 4].decode()), place + 4
        elif given[place] == 92:
            raise ValueError
        else:
            key, place = key + given[place : place + 1], place + 1
    return bytes(key)


def main():
    parser = argparse.ArgumentParser()
    parser.add_argument("command", choices=("list", "scan", "state"))
    parser.add_argument("log")
    for name in ("number", "from", "to"):
        parser.add_argument(f"--{name}", type=int)
    for name in ("key", "mode"):
        parser.add_argument(f"--{name}")
    for name in ("text", "json", "summary"):
        parser.add_argument(f"--{name}", action="store_true")
    asked = vars(parser.parse_args())
    try:
        with open(asked["log"], "rb") as file:
            log = file.read()
    except OSError:
        sys.exit(3)
    form = Form(asked["json"], asked["text"])
    if asked["command"] == "state":
        text, at, why = state_of(log, asked["number"], form)
        if not accepts(asked["mode"] or "point", log, at, why.split()[0], number_for(log, asked["number"])):
            sys.exit(8)
    else:
        key = None if asked["key"] is None else key_of(asked["key"], asked["text"])
        first, last = asked["from"] or 0, GREATEST if asked["to"] is None else asked["to"]
        make = summary_of_log if asked["summary"] else listing_of
        text = make(log, asked["number"], first, last, key, form, asked["command"] == "scan")
    sys.stdout.write(text)


if __name__ == "__main__":
    main()
