"""Writes what is whole in damaged logs of RocksDB or LevelDB as a new log, which opens in the strictest mode.

    salvage_log.py LOG.. NEW [--number N]

Each record that a scan of a LOG finds, also after damage, is written to NEW as it is, in the order of the files, if it
is a whole batch: all its operations are of kinds that RocksDB writes, and as many take a sequence as it says. N is the
LOGs' number, where their fragments have one; if it isn't given, it is that of a LOG's first header. In NEW they have
none. A LOG is only read. NEW must be new: it is called NEW.part until it is whole and synced.

For each LOG it prints `unread FROM TO AT REASON` for a stretch before a record in which none reads, `left START END
REASON` for a record that isn't written, and where and why no more was read; and last how many records are written and
are left out, and the stretches and bytes that don't read. The reasons are those of docs/RECOVERY.md. What follows
damage may be of another history.

The status is 3 if a LOG can't be read or NEW can't be written; 7 if NEW or NEW.part is there; and 8 if nothing was
written, since a LOG is compressed, or not one of its fragments reads: it is no log, or encrypted.
"""

import os
import sys

import wolzenn
from wolzenn import Why


def stop(status, path, why):
    print(f"salvage_log: {path}: {why}", file=sys.stderr)
    sys.exit(status)


def reads_at(log, number, place):
    """Whether the fragment at the start of a block reads."""
    records = wolzenn.Records(log, number, place)
    return bool(next(records, None)) or records.end.at > place or records.end.why in (Why.UNFINISHED, Why.BAD_ORDER)


def is_compressed(log):
    """Whether RocksDB has compressed the log: its first fragment, of the kind 9, says so."""
    end = 7 + int.from_bytes(log[4:6], "little")
    masked = wolzenn.crc32c_mask(wolzenn.crc32c(log[6:end])).to_bytes(4, "little")
    return log[6:7] == b"\x09" and end <= min(len(log), wolzenn.BLOCK_LEN) and log[:4] == masked


def number_of(log):
    """The number in the log's first header, if it has one and a fragment reads there with it, otherwise 0."""
    number = int.from_bytes(log[7:11], "little") if len(log) >= 11 and 5 <= log[6] <= 8 else 0
    return number if reads_at(log, number, 0) else 0


def fault_of(data):
    """Why a record is no whole batch of known operations, or None if it is one."""
    head = wolzenn.batch_head(data)
    if head is None:
        return Why.SHORT
    try:
        found = sum(it.sequences for it in wolzenn.all_operations(data))
    except wolzenn.NoBatch as it:
        return f"{it.end.why} {it.end.first}" if it.end.why == Why.TAG else it.end.why
    return None if found == head.count else f"count {head.count} {found}"


class Salvage:
    """The new log, and what is counted."""

    def __init__(self, file):
        self.writer, self.kept, self.left, self.stretches, self.unread = wolzenn.LogWriter(file), 0, 0, 0, 0

    def add(self, path, log, number):
        """Writes the whole batches of a log."""
        print("log", path)
        before = self.kept + self.left
        if is_compressed(log):
            stop(8, path, "it is compressed, which RocksDB reads, and this doesn't")
        scan = wolzenn.Scan(log, number)
        for unread, record in scan:
            if unread:
                print("unread", unread.start, unread.stop, unread.end)
                self.stretches, self.unread = self.stretches + 1, self.unread + unread.stop - unread.start
            why = fault_of(record.bytes)
            if why:
                print("left", record.start, record.end, why)
                self.left += 1
            else:
                self.writer.append(record.bytes)
                self.kept += 1
        print("end", scan.end)
        places = range(0, len(log), wolzenn.BLOCK_LEN)
        if log and self.kept + self.left == before and not any(reads_at(log, number, place) for place in places):
            stop(8, path, "not one fragment reads: it is no log, or encrypted, or has another number")


def add_logs(found, paths, given):
    """Writes the whole batches of the logs, which have this number, if it is given."""
    for path in paths:
        try:
            with open(path, "rb") as file:
                log = file.read()
        except OSError:
            stop(3, path, "it can't be read")
        found.add(path, log, number_of(log) if given is None else int(given))


def main():
    words, given = sys.argv[1:], None
    if words[-2:-1] == ["--number"]:
        *words, _, given = words
    if len(words) < 2:
        print("salvage_log.py LOG.. NEW [--number N]", file=sys.stderr)
        sys.exit(2)
    *paths, new = words
    try:
        with open(f"{new}.part", "xb") as file:
            try:
                found = Salvage(file)
                add_logs(found, paths, given)
                file.flush()
                os.fsync(file.fileno())
                os.link(file.name, new)
            finally:
                os.remove(file.name)
        # Syncs the file's entry in its folder, which the file's own sync doesn't make safe.
        folder = os.open(os.path.dirname(new) or ".", os.O_RDONLY)
        os.fsync(folder)
        os.close(folder)
    except OSError as it:
        stop(7 if isinstance(it, FileExistsError) else 3, it.filename2 or it.filename or new, it.strerror)
    print("kept", found.kept, "left", found.left, "unread", found.stretches, found.unread)


main()
