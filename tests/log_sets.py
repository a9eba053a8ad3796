"""What the logs of a run over several may have, however the run has ended: by its script, and by nothing of the
program's own.

`kill`, `faults`, `race` and `damage` in this folder use it. The records of all logs, one log after another, must be as
`logs.py` says of one log. Of the logs themselves these must hold, where a log is full from a certain length on:

- those that have bytes are the first ones, and each of them but the last is whole, and full by its last record alone;
- the last one wasn't full before its last record, unless no other log is left;
- nothing is written to a log before the one before it is safe, with its entry in the folder, and nothing to that one
  any more.

What may be left where the machine crashes too are the logs before the last one that was begun, a part of that one, and
nothing after it: a front of all records, with all that was safe.
"""

import itertools

from calls import notes_of
from logs import batches_of, check_history, check_notes, check_records, images_of, read_log
from outcomes import check_outcome, check_recovery, logs_in, record_bytes, wanted
from plain_log import recovery_of_logs
from scripts import script_of

# How many logs there may be.
COUNTS = [2, 3, 16]

# How a log may end that is cut off.
CUT_OFF = ["clean", "shortheader", "badlength", "unfinished"]

# The bytes of a fragment's header and of a batch's.
HEADERS = 7 + 12


def bytes_before(script):
    """How many bytes of the log at least come before the records of one of the clients after its first one: those of its
    own batches before each, which are in records of their own. It is the client with the most before its last one.
    """
    most = []
    for batches in batches_of(script):
        sizes = [HEADERS + sum(map(len, map(record_bytes, lines))) for flag, lines in batches if flag != "nolog"]
        most = max(most, list(itertools.accumulate(sizes[:-1])), key=lambda sums: sums[-1:])
    return most


def script_to_rotate(draw, count=None, families=1):
    """A script of this many clients, or of several, with keys of this many families, in which one client has two batches
    for the log.
    """
    while True:
        script = script_of(draw, is_named=True, count=count, families=families)
        if bytes_before(script):
            return script


def limit_of(draw, script, count):
    """A length from which on a log is full: one by which a run over this many logs comes to the second one at least.
    Where there is one client, a log may come to just this length.
    """
    sums = bytes_before(script)
    return draw.choice([1, draw.randint(1, sums[-1]), max(1, sums[-1] // count), draw.choice(sums), draw.choice(sums)])


def options_of(count, limit):
    """The options of a run over this many logs."""
    return ["--logs", str(count), "--log-bytes", str(limit)]


def check_recovery_of_logs(contents, recovered):
    """Checks what the program recovers from several logs. `recovered` answers it for their bytes."""
    wanted(recovered(contents) == recovery_of_logs(contents)[0], f"the recovery of logs of {lens_of(contents)} bytes")


def lens_of(contents):
    return [None if content is None else len(content) for content in contents]


def begun_in(contents):
    """How many logs have bytes. They are the first ones."""
    begun = [log for log, content in enumerate(contents, 1) if content]
    wanted(begun == list(range(1, len(begun) + 1)), f"bytes in the first logs alone, not {lens_of(contents)}")
    return len(begun)


def records_of_logs(contents):
    """The records of each log, up to the first one that isn't read to its end."""
    found, why = [], "clean"
    for content in contents:
        records, why = read_log(content or b"") if why == "clean" else ([], why)
        found.append(records)
    return found


def front_of_logs(contents, count):
    """What the logs have of their first records, of this many in all."""
    front, left = [], count
    for records, content in zip(records_of_logs(contents), contents):
        ends = [0, *(record.end for record in records)]
        front.append(content[: ends[min(left, len(records))]])
        left -= min(left, len(records))
    return front


def check_filled(contents, limit):
    """Checks that each log but the last one that was begun is whole and full, and none by more than its last record.
    Gives back the records of each log, and why the last one that was begun ends.
    """
    count, last_why, found = begun_in(contents), "clean", []
    for log, content in enumerate(contents[:count], 1):
        records, why = read_log(content)
        ends = [0, *(record.end for record in records)]
        is_torn = ends[-1] < len(content)
        if log < count:
            wanted(why == "clean" and not is_torn, f"a log {log} that is read to its end, not {why}")
            wanted(ends[-1] >= limit, f"a log {log} of {limit} bytes at least, not of {ends[-1]}")
        # A torn record is the last one too.
        before = ends[-1] if is_torn else ends[-2]
        wanted(log == len(contents) or before < limit, f"a log {log} with fewer than {limit} bytes, not {before}")
        last_why = why
        found.append(records)
    return found + [[] for _ in contents[count:]], last_why


def check_order_of_writes(notes):
    """Checks that nothing is written to a log before the one before it is safe, and nothing to that one after it."""
    current, ends, synced, is_open, has_entry = 1, {}, {}, set(), set()
    for words in notes:
        if words[0] == "open":
            is_open.add(int(words[1]))
        elif words[0] == "entry":
            has_entry |= is_open
        elif words[0] == "synced":
            synced[int(words[1])] = int(words[2])
        elif words[0] == "write":
            log, at, length = (int(word) for word in words[1:])
            wanted(log in (current, current + 1), f"a write to log {current} or the next one, not to {log}")
            is_safe = current in has_entry and synced.get(current, 0) == ends.get(current)
            wanted(log == current or is_safe, f"log {current} safe before a write to the next one")
            current, ends[log] = log, at + length


def check_set_notes(found, synced, notes):
    """Checks the calls that a run has made on its logs, and gives back how much of each was safe."""
    check_order_of_writes(notes)
    safe = []
    for log, records in enumerate(found, 1):
        own = [record for record in synced if record in records]
        safe.append(check_notes(records, own, notes_of(notes, log)))
    return safe


def check_set_images(contents, safe, draw, recovered):
    """Checks what a crash of the machine might leave, where this much of each log is safe: all records of the logs
    before the last one that was begun, all of that one up to there, and no others than were written.
    """
    current = max(begun_in(contents), 1) - 1
    found = records_of_logs(contents)
    records = [record for own in found for record in own]
    kept = [record for own in found[:current] for record in own]
    kept += [record for record in found[current] if record.end <= safe[current]]
    images = [*images_of(contents[current] or b"", safe[current], draw)]
    # A file whose entry isn't safe may be gone. The first one can't be gone for `recover`.
    images += [None] if current > 0 and safe[current] == 0 else []
    for image in images:
        later = [draw.choice([b"", None]) for _ in contents[current + 1 :]]
        logs = [*contents[:current], image, *later]
        check_recovery_of_logs(logs, recovered)
        left = [record for own in records_of_logs(logs) for record in own]
        wanted(left == records[: len(left)], "a prefix of the records of all logs")
        wanted(left[: len(kept)] == kept, f"all records of what is safe, {safe}")


def check_printed_set(script, text, contents, limit, families=1):
    """Checks an outcome and the logs that it is about, of which one may have failed. Gives back the history, whether
    one has failed, the records of each log, and what each has up to its printed length.
    """
    batches, rest = check_outcome(script, text, families=families)
    lens, fault = logs_in(rest)
    found, _ = check_filled(contents, limit)
    count = len(lens)
    wanted(count <= len(contents) and not any(contents[count:]), f"nothing in the logs after {lens}")
    wanted(lens[:-1] == lens_of(contents[: count - 1]), f"full logs of {lens[:-1]} bytes")
    wanted(fault in (None, "1"), f"one fault at most, not {fault}")
    last = contents[count - 1] or b""
    wanted(len(last) == lens[-1] or fault and len(last) > lens[-1], f"a log of {lens[-1]} bytes, not of {len(last)}")
    kept = [record for record in found[count - 1] if record.end <= lens[-1]]
    wanted(read_log(last[: lens[-1]]) == (kept, "clean"), f"whole records up to {lens[-1]}")
    before = [record for own in found[: count - 1] for record in own]
    check_history(script, batches, [*before, *kept], found[count - 1][len(kept) :])
    return batches, fault is not None, found, [*contents[: count - 1], last[: lens[-1]]]


def check_set_run(script, status, text, contents, limit, notes, recovered, families=1):
    """Checks a run that has ended by itself, and gives back whether one of its logs has failed. What was acknowledged
    with a sync is safe.
    """
    batches, has_failed, found, kept = check_printed_set(script, text, contents, limit, families)
    wanted(status == (3 if has_failed else 0), f"a status that fits {text[-40:]!r}, not {status}")
    check_recovery(batches, recovered(kept))
    check_recovery_of_logs(contents, recovered)
    synced = check_records(script, [record for own in found for record in own])
    safe = check_set_notes(found, synced, notes)
    for log, own in enumerate(kept):
        ends = [record.end for record in synced if record in found[log] and safe[log] < record.end <= len(own)]
        wanted(not ends or not notes, f"{safe} bytes of each log that are safe, not those up to {ends}")
    return has_failed


def check_set_left(script, status, text, contents, limit, notes, draw, recovered, families=1):
    """Checks what a run has left that has ended well, with the status 0 and this text, or was killed."""
    found, why = check_filled(contents, limit)
    records = [record for own in found for record in own]
    wanted(why.split(" ")[0] in (CUT_OFF if status else CUT_OFF[:1]), f"logs that are whole, or cut off, and not {why}")
    synced = check_records(script, records)
    if status == 0:
        batches, rest = check_outcome(script, text, families=families)
        lens = [length for length in lens_of(contents) if length]
        wanted(logs_in(rest) == (lens, None), f"the lengths {lens}: {rest}")
        wanted(len(lens) > 1, f"a second log of {lens}, where {limit} bytes are the limit")
        check_recovery(batches, recovered(contents))
    if contents[0] is not None:
        check_recovery_of_logs(contents, recovered)
        check_set_images(contents, check_set_notes(found, synced, notes), draw, recovered)
