"""Follows a log that another program writes: prints each batch once, where it is and which sequences it has, from the
one on that has the sequence SINCE or a later one. Where bytes are damaged it goes on with the next record that reads.

    follow_log.py LOG SINCE [NUMBER]

NUMBER is the log's own, where its fragments have one. `unread FROM TO` is before a record that comes after damage, and
says where no record reads, and why; what follows it may be of another history. It ends where no record has come for a
second: the last line says where and why no more was read. It ends at once if the log was cut before the end of the last
record.

Only the bytes up to the end of the last record are kept, and those after it are read anew each time, also where the
file is as long as before: a program that resumes the log cuts off an incomplete record, and one that writes a log over
an older file doesn't make it longer. What is read first may be older than what is read last. So that no record reads in
a stretch counts only once it was read a second time: then all that was written before the next record is there.
"""

import os
import sys
import time

import wolzenn
from wolzenn import Why

PAUSE, QUIET = 0.02, 1


class Followed:
    """A log that another program writes: what it has so far; where its last record ended, and when that was found;
    where the next record began when a stretch before it was seen for the first time; and where and why no more was
    read."""

    def __init__(self, file, number, since):
        self.file, self.number, self.since = file, number, since
        self.log, self.place, self.found_at, self.seen = bytearray(), 0, time.monotonic(), 0
        self.end = wolzenn.End(0, Why.CLEAN)

    def read_rest(self):
        """Reads anew what the file has after the last record."""
        del self.log[self.place :]
        self.file.seek(self.place)
        self.log += self.file.read()
        if os.fstat(self.file.fileno()).st_size < self.place:
            sys.exit("follow_log: the log was cut before the end of the last record")

    def print_record(self, record):
        """Prints the batch of a record, if it is one that is asked for."""
        try:
            head = wolzenn.read_batch(record.bytes)
        except wolzenn.NoBatch as it:
            print(f"record {record.start} {record.end}  no batch: {it.end.why}")
            return
        if head.count > 0 and head.sequence + head.count - 1 >= self.since:
            print(f"record {record.start} {record.end}  batch {head.sequence} {head.count}")

    def print_more(self):
        """Prints the records after the last one. Says whether to read anew at once: before a stretch that is to be read
        a second time."""
        with wolzenn.Scan(self.log, self.number, self.place) as scan:
            for unread, record in scan:
                if unread and unread.stop != self.seen:
                    self.seen = unread.stop
                    return True
                if unread:
                    print("unread", unread.start, unread.stop, unread.end.why)
                self.print_record(record)
                self.place, self.found_at = record.end, time.monotonic()
            self.end = scan.end
        return False


def main():
    path, since, number = [*sys.argv[1:], *["0"][len(sys.argv) - 3 :]]
    with open(path, "rb", buffering=0) as file:
        log, is_next = Followed(file, int(number), int(since)), False
        while is_next or time.monotonic() - log.found_at < QUIET:
            if not is_next:
                time.sleep(PAUSE)
            log.read_rest()
            is_next = log.print_more()
            sys.stdout.flush()
    print("end", log.end)


main()
