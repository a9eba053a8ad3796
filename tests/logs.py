"""What the log of a run may have, however the run has ended: by its script, and by nothing of the program's own.

`kill` and `faults` in this folder use it, with scripts whose batches are named by notes (`scripts.py`), and so does
`log_sets.py` for several logs. It reads logs by `plain_log.py`. Of a log these must hold:

- each record is whole batches of different clients, one after another, of commits that should not stay out of the log;
- each client's batches are all of its own up to some commit, each once, in its order;
- the runs ascend, and what is between them is the batches that stay out of the log: those that their clients had
  committed before, and perhaps those that come next.

What may be left where the machine crashes too must be a front of the records, with all that was safe.
"""

from typing import NamedTuple

from outcomes import TAGS, TAGS_OF_FAMILIES, adds, count_of, flag_of, record_bytes, updates_in, wanted
from plain_log import FULL, LAST, NAMING, End, batch_of, fragments_of, header_len, records_of, recover_into, recovery_of

# The first word of a line that adds to a batch, by the tag of what it adds.
WORDS = {tag[0]: word for word, tag in TAGS.items()} | {tag[0]: "f" + word for word, tag in TAGS_OF_FAMILIES.items()}


class Record(NamedTuple):
    """A record of a log: where it ends, its run of sequences, and what it has, as lines of a script."""

    end: int
    first: int
    count: int
    lines: list


def line_of(tag, strings, family):
    """The line that adds what a change has."""
    return [WORDS[tag], *([str(family)] if tag in NAMING else []), *(string.decode() for string in strings)]


def read_log(content, number=None):
    """The records of a log with this number, or without one, and why it ends."""
    ends, records, why = [], [], "clean"
    try:
        for at, kind, data in fragments_of(content, number):
            ends += [at + header_len(number) + len(data)] if kind in (FULL, LAST) else []
    except End as end:
        why = end.args[1]
    try:
        for end, (_, record) in zip(ends, records_of(content, number)):
            first, count, changes = batch_of(record)
            lines = [line_of(*change) for change in changes]
            records.append(Record(end, first, count, lines))
    except End as end:
        why = end.args[1]
    return records, why


def updates_of(contents, since, at, number=None):
    """What a read of these logs from a sequence on prints that was made at another one, where none of them is damaged."""
    found = []
    for content in contents:
        for _, record in records_of(content, number):
            first, count, _ = batch_of(record)
            found += [f" {record.hex()}"] if count > 0 and since <= first + count - 1 <= at else []
    return f"updates {at} {len(found)}" + "".join(found)


def check_followers(script, text, contents, number=None):
    """Checks what each client got that reads the log: each time what the logs have, and put together, where it asked for
    all at last, all that they have up to the last sequence that it read at.
    """
    for own in updates_in(script, text):
        got, at = set(), 0
        for words, reply in own:
            if reply != "no selfstop":
                at, records = int(reply.split(" ")[1]), reply.split(" ")[3:]
                wanted(reply == updates_of(contents, int(words[1]), at, number), f"what the log has, not {reply:.200}")
                got |= {*records}
        # A client that holds a stop token isn't given the log, at its last read either.
        if own and own[-1][0] == ["updates", "0"] and own[-1][1] != "no selfstop":
            whole = updates_of(contents, 0, at, number).split(" ")[3:]
            wanted(got == {*whole} and records == whole, f"all that the log has up to {at}")


def check_recovery_of(content, recovered, number=None):
    """Checks what the program recovers from a log with this number, or without one. `recovered` answers it for some
    bytes."""
    wanted(recovered(content) == recovery_of(content, number)[0], f"the recovery of {len(content)} bytes")


def recovered_of(content, number=None):
    """The last sequence and the map that a log, whose keys and values are text, recovers."""
    pairs = {}
    last, _, _ = recover_into([], pairs, content, number)
    return last, {(family, key.decode()): value.decode() for (family, key), value in pairs.items()}


def batches_of(script):
    """Each client's batches, where none of its commits is refused: how each is committed, and its records."""
    clients = []
    for commands in script:
        batches, pending = [], []
        for words in commands:
            if words[0] == "commit":
                batches.append((flag_of(words), pending))
                pending = []
            elif adds(words):
                pending.append(words)
        clients.append(batches)
    return clients


def logged_bytes(script):
    """How many bytes of records the script has for the log."""
    batches = [batch for client in batches_of(script) for flag, batch in client if flag != "nolog"]
    return sum(len(record_bytes(words)) for batch in batches for words in batch)


def members_of(clients, record):
    """The batches that a record has, each by its client and how many of the client's batches come before it."""
    members, rest = [], record.lines
    while rest:
        wanted(rest[0][0] == "note", f"a batch that begins with its name, not with {rest[0]}")
        client, turn = (int(word) for word in rest[0][1].split("."))
        batch = clients[client - 1][turn][1]
        wanted(rest[: len(batch)] == batch, f"the whole batch {client}.{turn}")
        wanted(client not in [member[0] for member in members], f"one batch of client {client} in a record")
        members.append((client, turn))
        rest = rest[len(batch) :]
    return members


def check_records(script, records, last=0):
    """Checks the records that a run has left in a log after this sequence, and gives back those that should be synced.
    """
    clients, synced = batches_of(script), []
    counts = [[count_of(batch) for _, batch in batches] for batches in clients]
    taken = [0] * len(clients)
    for record in records:
        members = members_of(clients, record)
        for client, turn in members:
            batches, before = clients[client - 1], taken[client - 1]
            wanted(turn >= before, f"the batch {client}.{turn} once, and in its order")
            passed = [flag for flag, _ in batches[before:turn]]
            wanted(set(passed) <= {"nolog"}, f"all logged batches of client {client} before {client}.{turn}")
            wanted(batches[turn][0] != "nolog", f"{client}.{turn} not in the log")
            taken[client - 1] = turn
        # The sequences that may be given out before this record: those of all that its members' clients have
        # committed, and of what others have, with any number of their next batches that stay out of the log.
        sums = {last + sum(sum(count[:end]) for count, end in zip(counts, taken))}
        for client in set(range(1, len(clients) + 1)) - {client for client, _ in members}:
            end, more = taken[client - 1], [0]
            while end < len(clients[client - 1]) and clients[client - 1][end][0] == "nolog":
                more.append(more[-1] + counts[client - 1][end])
                end += 1
            sums = {have + one for have in sums for one in more}
        wanted(record.first - 1 in sums, f"a run after one of {sorted(sums)}, not {record.first}")
        for client, turn in members:
            taken[client - 1] = turn + 1
        if any(clients[client - 1][turn][0] == "sync" for client, turn in members):
            synced.append(record)
    return synced


def refused_of(script, batches):
    """The next batch of each client after its accepted ones, by its client and how many these are."""
    accepted = [0] * len(script)
    for _, _, line, _ in batches:
        accepted[int(line.split(" ")[2]) - 1] += 1
    return list(enumerate(accepted, 1))


def check_history(script, batches, kept, behind):
    """Checks that the records which were kept have just the logged batches of a history, in its order. Behind them
    there is one record at most, of refused batches, which has the next sequences.
    """
    found = [(client, turn + 1) for record in kept for client, turn in members_of(batches_of(script), record)]
    history = [line.split(" ") for _, _, line, _ in batches]
    logged = [(int(words[2]), int(words[3])) for words in history if words[4] != "nolog"]
    wanted(found == logged, f"the logged batches of the history, {logged}, not {found}")
    for record in behind:
        last = batches[-1][1] if batches else 0
        wanted(len(behind) == 1 and record.first == last + 1, f"one record behind them, after the sequence {last}")
        for member in members_of(batches_of(script), record):
            wanted(member in refused_of(script, batches), f"a refused batch, not {member}")


def check_notes(records, synced, notes):
    """Checks the calls that a run has made on its log, which `calls.c` in this folder has noted, and gives back how
    much of the log was safe.

    Nothing is written after a record that should be synced until it is safe, and its entry in the folder. Each sync is
    of whole records.
    """
    safe, synced_to, has_entry = 0, 0, False
    ends = [0, *(record.end for record in records)]
    for words in notes:
        if words[0] == "synced":
            synced_to = int(words[1])
            wanted(synced_to in ends, f"a sync of whole records, not of {synced_to} bytes")
        has_entry = has_entry or words[0] == "entry"
        safe = synced_to if has_entry else 0
        if words[0] == "write":
            behind = [record.end for record in synced if safe < record.end <= int(words[1])]
            wanted(not behind, f"no write at {words[1]} before what ends at {behind} is safe")
    return safe


def told_of_writes(notes):
    """Notes of a run over an old log: each sync is of what was written before. There the length tells nothing."""
    told, end = [], 0
    for words in notes:
        if words[0] == "write":
            end = int(words[1]) + int(words[2])
        told.append(["synced", str(end)] if words[0] == "synced" else words)
    return told


def images_of(content, safe, draw, old=b""):
    """What a crash of the machine might leave of a log of which this much is safe: that alone, a front that was drawn,
    and one that has lost pieces of the size of a sector. Bytes of an old log remain wherever new ones are lost.
    """
    cut = draw.randint(safe, len(content))
    torn, before = bytearray(content), old.ljust(len(content), b"\0")
    for at in range(safe // 512, len(torn) // 512 + 1):
        start, end = max(at * 512, safe), min(at * 512 + 512, len(torn))
        if draw.random() < 0.5 and start < end:
            torn[start:end] = before[start:end]
    return content[:safe] + old[safe:], content[:cut] + old[cut:], bytes(torn)


def check_images(content, safe, draw, recovered, old=b"", number=None):
    """Checks what a crash of the machine might leave, where this much of the log is safe: it has all records up to
    there, and no others than were written. `recovered` answers what the program recovers from some bytes. A log with a
    number may be written over an old one.
    """
    records = read_log(content, number)[0]
    for image in images_of(content, safe, draw, old):
        check_recovery_of(image, recovered, number)
        found = read_log(image, number)[0]
        wanted(found == records[: len(found)], "a prefix of the records")
        whole = [record for record in records if record.end <= safe]
        wanted(found[: len(whole)] == whole, f"all records of the {safe} bytes that are safe")
