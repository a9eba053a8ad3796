"""What the examples `salvage_log` should write and print, by `plain_listing.py`, and nothing of the library's own.

`library` and `peers_salvage` in this folder use it.
"""

from plain_listing import is_damaged, own_number, scan_of, shown_of
from plain_log import BLOCK, fragment_of_code, number_of


def is_compressed(log):
    """Whether the log begins with the fragment, of the kind 9, by which RocksDB says that it is compressed."""
    end = 7 + number_of(log[4:6])
    return end <= min(BLOCK, len(log)) and log[:end] == fragment_of_code(9, log[7:end])


def salvage_of(logs, given=None):
    """What should be answered for logs, each a path and its bytes, and their number where it is given: the status, the
    lines that are printed, and the records that the new log has, or None where none is written."""
    lines, kept, left, stretches = [], [], 0, []
    for path, log in logs:
        number = own_number(log) if given is None else given or None
        lines.append(f"log {path}")
        if is_compressed(log):
            return 8, lines, None
        items, at, why = scan_of(log, number, True)
        for item in items:
            if len(item) == 4:
                lines.append("unread {} {} {} {}".format(*item))
                stretches.append(item[1] - item[0])
                continue
            start, end, record = item
            fault = shown_of(record)[2]
            if fault is None:
                kept.append(record)
            else:
                lines.append(f"left {start} {end} {fault}")
                left += 1
        lines.append(f"end {at} {why}")
        if log and not items and all(is_damaged(log, place, number) for place in range(0, len(log), BLOCK)):
            return 8, lines, None
    return 0, [*lines, f"kept {len(kept)} left {left} unread {len(stretches)} {sum(stretches)}"], kept
