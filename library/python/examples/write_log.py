"""Writes a log that RocksDB opens: a batch, a group of two batches, and a batch of many blocks.

    write_log.py LOG [NUMBER]

Each record is safe once the file is synced, which this program does itself. If LOG exists, the log is resumed: what it
recovers is kept, and the rest is truncated. If nothing of it would be kept, as with a wrong NUMBER, it is left alone.
"""

import os
import sys

import wolzenn
from wolzenn import Batch, LogWriter, Mode


class Log:
    """A log that is written: its file, and the last sequence that was given."""

    def __init__(self, path, number):
        # Where the log is new, nothing is recovered, and it begins at 0.
        self.file = os.fdopen(os.open(path, os.O_RDWR | os.O_CREAT, 0o666), "r+b", buffering=0)
        found = self.file.read()
        with wolzenn.recover(found, number, Mode.TAIL) as recovery:
            kept, self.last, end = recovery.kept, recovery.last, recovery.end
        if kept == 0 and found:
            sys.exit(f"nothing of {path} would be kept: end {end}")
        self.file.truncate(kept)
        self.file.seek(kept)
        os.fsync(self.file.fileno())
        # Syncs the file's entry in its folder, which the file's own sync doesn't make safe.
        folder = os.open(os.path.dirname(path) or ".", os.O_RDONLY)
        os.fsync(folder)
        os.close(folder)
        self.writer = LogWriter(self.file, number, kept)

    def commit(self, batch):
        """Writes a batch as the next record of the log, with the next sequences, and syncs the file."""
        batch.sequence = self.last + 1
        end = self.writer.append(batch)
        os.fsync(self.file.fileno())
        self.last += batch.count
        print(f"safe up to sequence {self.last}, {end} bytes")


def main():
    log = Log(sys.argv[1], int(sys.argv[2]) if len(sys.argv) > 2 else 0)

    # A batch of three records, of which two count: log data takes no sequence.
    batch = Batch()
    batch.put(b"apple", b"red")
    batch.put(b"plum", b"blue")
    batch.log_data(b"a note")
    log.commit(batch)

    # A group: two batches, as two clients may have built them, which go into the log as one record.
    first, second = Batch(), Batch()
    first.put(b"apple", b"green")
    second.delete(b"plum")
    second.put(b"pear", b"")
    batch.clear()
    batch.append(first)
    batch.append(second)
    log.commit(batch)

    # A value of three blocks, so that the record is cut into fragments.
    batch.clear()
    batch.put(b"quince", b"v" * 100_000)
    batch.single_delete(b"pear")
    log.commit(batch)


main()
