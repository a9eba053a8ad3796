"""Prints a log of RocksDB or LevelDB: where each record is, and what the batch in it does.

    print_log.py LOG [NUMBER]

NUMBER is the log's own, where its fragments have one. Operations of every kind are printed, with their strings in
hexadecimal, `-` for none, after the number of the column family that they name. The last line says where reading ended,
and why.
"""

import sys

import wolzenn

# The words of tags that aren't called by their names.
WORDS = {
    **{"VALUE": "put", "DELETION": "del", "SINGLE_DELETION": "sdel", "LOG_DATA": "note", "NOTHING": "noop"},
    **{"RANGE_DELETION": "deleterange", "WIDE_COLUMNS": "putentity", "VALUE_WITH_TIME": "timedput"},
    "COMMIT_WITH_TIMESTAMP": "committimestamp",
}


def print_batch(data):
    """Prints what the batch of a record says of itself, and its operations, up to the first that can't be read."""
    head, sequences = wolzenn.batch_head(data), 0
    if head:
        print("  batch", head.sequence, head.count)
    for it in wolzenn.all_operations(data):
        name = it.tag.name.removesuffix("_CF")
        family = [it.family] if it.tag.name != name else []
        word = WORDS.get(name, name.replace("_", "").lower())
        print(" ", word, *family, *(string.hex() or "-" for string in it.strings))
        sequences += it.sequences
    if head and head.count != sequences:
        print("  no batch: count")


def main():
    with open(sys.argv[1], "rb") as file:
        log = file.read()
    records = wolzenn.Records(log, int(sys.argv[2]) if len(sys.argv) > 2 else 0)
    for record in records:
        print("record", record.start, record.end)
        try:
            print_batch(record.bytes)
        except wolzenn.NoBatch as why:
            print(" ", why)
    print("end", records.end)


main()
