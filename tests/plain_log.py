"""An independent reader of logs and batches, by docs/FORMATS.md and RocksDB's wiki, and nothing of the program's own.

`damage`, `kill`, `faults` and `race` in this folder use it. `recovery_of` says what `recover` should print for a log's
bytes, and `recovery_of_logs` for those of several logs. There is also a small writer: `laid_out` makes a log of
records, as the program should, or with records that are cut at other places. Where a function takes a log's number,
None means a log whose headers have no number.
"""

import functools

# A header has 7 bytes, and 11 where it has the log's number. The kinds are higher by 4 there.
BLOCK, HEADER, NUMBERED_HEADER = 32768, 7, 11
FULL, FIRST, MIDDLE, LAST = 1, 2, 3, 4

# The greatest sequence.
GREATEST = 2**56 - 1

# How many strings come after a tag: that of a deletion, a value, log data, a single deletion, and those three that name
# a family, whose number comes before the strings.
STRINGS = {0: 1, 1: 2, 3: 1, 4: 1, 5: 2, 7: 1, 8: 1}
NAMING = (4, 5, 8)
VALUE, NOTE, VALUE_IN = 1, 3, 5

MASK = 0xA282EAD8


class End(Exception):
    """Reading ends at this offset, for this reason."""


class NoBatch(Exception):
    """A record is no batch, for this reason."""


def eight_steps(byte):
    for _ in range(8):
        byte = byte >> 1 ^ (0x82F63B78 if byte & 1 else 0)
    return byte


STEPS = [eight_steps(byte) for byte in range(256)]


@functools.lru_cache(1024)
def checksum(data):
    """The bytes of CRC-32C, masked."""
    crc = 0xFFFFFFFF
    for byte in data:
        crc = crc >> 8 ^ STEPS[(crc ^ byte) & 255]
    crc ^= 0xFFFFFFFF
    return (((crc >> 15 | crc << 17) + MASK) % 2**32).to_bytes(4, "little")


def number_of(data):
    return int.from_bytes(data, "little")


def header_len(number):
    return HEADER if number is None else NUMBERED_HEADER


def code_of(kind, number):
    """The code of a kind in a header."""
    return kind if number is None else kind + 4


def number_bytes(number):
    """What a header has after the kind."""
    return b"" if number is None else number.to_bytes(4, "little")


def fragment_at(log, at, number):
    """The kind and the data of the fragment at this offset. The rest of its block has room for a header."""
    size = header_len(number)
    head = log[at : at + size]
    if len(head) < size:
        raise End(at, "shortheader")
    if not any(head):
        raise End(at, "zeros")
    length, code = number_of(head[4:6]), head[6]
    is_kind = code in [code_of(kind, number) for kind in (FULL, FIRST, MIDDLE, LAST)]
    is_within = size + length <= min(BLOCK - at % BLOCK, len(log) - at)
    # The length of a header without a number is looked at before its kind, and in a header with a number last.
    if number is None and not is_within:
        raise End(at, "badlength")
    if not is_kind:
        raise End(at, f"badtype {code}")
    if head[7:] != number_bytes(number):
        raise End(at, f"oldlog {number_of(head[7:])}")
    if not is_within:
        raise End(at, "badlength")
    data = log[at + size : at + size + length]
    if head[:4] != checksum(head[6:] + data):
        raise End(at, "badchecksum")
    return code - code_of(0, number), data


def fragments_of(log, number=None):
    """The fragments of a log up to its end, each with its offset, its kind and its data."""
    at, size = 0, header_len(number)
    while at < len(log):
        left = BLOCK - at % BLOCK
        if left < size:
            if any(log[at : at + left]):
                raise End(at, "badtrailer")
            at += left
        else:
            kind, data = fragment_at(log, at, number)
            yield at, kind, data
            at += size + len(data)


def records_of(log, number=None):
    """The records of a log up to its end, each with the offset of its first fragment."""
    begun, parts = None, []
    for at, kind, data in fragments_of(log, number):
        if (kind in (FULL, FIRST)) != (begun is None):
            raise End(at, "badorder")
        begun = at if begun is None else begun
        parts.append(data)
        if kind in (FULL, LAST):
            yield begun, b"".join(parts)
            begun, parts = None, []
    if begun is not None:
        raise End(begun, "unfinished")


def length_at(record, place):
    """The number that a varint at this place spells, and the place after it."""
    number = 0
    for used in range(5):
        if place + used == len(record):
            raise NoBatch("short")
        byte = record[place + used]
        number += (byte & 127) << 7 * used
        if used == 4 and byte > 15 or used > 0 and byte == 0:
            raise NoBatch("badvarint")
        if byte < 128:
            return number, place + used + 1


def batch_of(record):
    """The sequence and the count of a batch, and its changes, each a tag, its strings and its family."""
    if len(record) < 12:
        raise NoBatch("short")
    said, changes, place = number_of(record[8:12]), [], 12
    while place < len(record):
        tag, strings, family, place = record[place], [], 0, place + 1
        if tag not in STRINGS:
            raise NoBatch(f"tag {tag}")
        if tag in NAMING:
            family, place = length_at(record, place)
        for _ in range(STRINGS[tag]):
            length, place = length_at(record, place)
            if place + length > len(record):
                raise NoBatch("short")
            strings.append(record[place : place + length])
            place += length
        changes.append((tag, strings, family))
    count = sum(tag != NOTE for tag, *_ in changes)
    if said != count:
        raise NoBatch(f"count {said} {count}")
    return number_of(record[:8]), count, changes


def recover_into(groups, pairs, log, number, last=0):
    """Reads a log, which comes after this sequence, into its groups and its map, whose keys are pairs of a family and a
    key in it: the last sequence, and where and why reading ends.
    """
    at = 0
    try:
        for at, record in records_of(log, number):
            first, count, changes = batch_of(record)
            if count > 0 and first <= last:
                return last, at, f"order {first} {last}"
            if count > 0 and first + count - 1 > GREATEST:
                return last, at, f"high {first} {count}"
            groups.append(f"{first} {count} {len(record)}")
            last = first + count - 1 if count > 0 else last
            for tag, strings, family in changes:
                if tag in (VALUE, VALUE_IN):
                    pairs[family, strings[0]] = strings[1]
                elif tag != NOTE:
                    pairs.pop((family, strings[0]), None)
    except NoBatch as why:
        return last, at, why.args[0]
    except End as end:
        return last, *end.args
    return last, len(log), "clean"


def recover_logs_into(groups, pairs, logs):
    """Reads logs that were written one after another into their groups and their map. A log is read only where the one
    before it was read to its end; None is a log whose file isn't there, which has no bytes. Gives back the last
    sequence, and in which log reading ends, counted from 1, where, and why.
    """
    last, log, at, why = 0, 0, 0, "clean"
    for log, content in enumerate(logs, 1):
        last, at, why = recover_into(groups, pairs, content or b"", None, last)
        if why != "clean":
            break
    return last, log, at, why


def kept_of(log, count, number=None):
    """Where the last of a log's first `count` records ends."""
    ends = [0]
    try:
        for at, kind, data in fragments_of(log, number):
            ends += [at + header_len(number) + len(data)] if kind in (FULL, LAST) else []
    except End:
        pass
    return ends[count]


def place_of(family, key):
    """A key as it is printed: after its family's number, unless that is the default one."""
    return f"{family} " * (family > 0) + (key.hex() or "-")


def text_of_recovery(groups, pairs, last, *end):
    """What is printed of groups, their map and their last sequence. `end` says where and why reading ends."""
    rows = [f"{place_of(*key)} {pairs[key].hex() or '-'}" for key in sorted(pairs)]
    lines = [f"groups {len(groups)}", *groups, f"state {last} {len(rows)}", *rows]
    return "".join(line + "\n" for line in [*lines, " ".join(["end", *map(str, end)])])


def recovery_of(log, number=None):
    """What `recover` should print for a log, and the first word of the reason."""
    groups, pairs = [], {}
    last, at, why = recover_into(groups, pairs, log, number)
    return text_of_recovery(groups, pairs, last, at, why), why.split(" ")[0]


def recovery_of_logs(logs):
    """What `recover --logs` should print for several logs, in which of them reading ends, and the first word of the
    reason.
    """
    groups, pairs = [], {}
    last, *end = recover_logs_into(groups, pairs, logs)
    return text_of_recovery(groups, pairs, last, *end), end[0], end[2].split(" ")[0]


def is_cut_off(log, at, why, number=None):
    """Whether the log's last write was cut off where reading ends, and nothing but zeros comes after that."""
    size = header_len(number)
    if why == "badlength":
        length = size + number_of(log[at + 4 : at + 6])
        return at + size <= len(log) < at + length and length <= BLOCK - at % BLOCK
    return why in ("shortheader", "unfinished") or why == "zeros" and not any(log[at:])


def accepts(mode, log, at, why, number=None):
    """Whether a mode accepts that the recovery of a log ends at this offset, for a reason that begins with this word."""
    if mode == "point" or why in ("clean", "oldlog"):
        return True
    return mode == "tail" and is_cut_off(log, at, why, number)


# The writer.


def fragment_of_code(code, data, number=None):
    """A fragment with this code as its kind, whatever it is."""
    tail = bytes([code]) + number_bytes(number)
    return checksum(tail + data) + len(data).to_bytes(2, "little") + tail + data


def fragment(kind, data, number=None):
    return fragment_of_code(code_of(kind, number), data, number)


def laid_out(records, draw=None, number=None, front=b""):
    """A log of these records, which are cut where a block ends, and with `draw` at other drawn places too. They come
    after a front that ends with a record.
    """
    log, size = bytearray(front), header_len(number)
    for record in records:
        is_begun, is_ended = False, False
        while not is_ended:
            left = BLOCK - len(log) % BLOCK
            if left < size:
                log += bytes(left)
                continue
            fits = min(left - size, len(record))
            part = record[: draw.randint(0, fits) if draw and draw.random() < 0.5 else fits]
            record = record[len(part) :]
            is_ended = not record
            kind = (LAST if is_begun else FULL) if is_ended else (MIDDLE if is_begun else FIRST)
            log += fragment(kind, part, number)
            is_begun = True
    return bytes(log)


def varint(number):
    spelled = bytearray()
    while number > 127:
        spelled.append(number % 128 + 128)
        number //= 128
    return bytes([*spelled, number])


def change(tag, strings, family=0):
    named = varint(family) if tag in NAMING else b""
    return bytes([tag]) + named + b"".join(varint(len(string)) + string for string in strings)


def batch(first, count, changes):
    return first.to_bytes(8, "little") + count.to_bytes(4, "little") + b"".join(changes)
