"""An independent checker of printed outcomes: a plain map, plain batches, and nothing of the program's own.

`race`, `schedules`, `kill` and `faults` in this folder use it, and `shown` as `outcomes.py SCRIPT <OUTCOME`, which
says what is wrong with it. Of an outcome these must hold:

- each client's accepted batches are once in the history, in its order, each with just what the client put into it;
- the runs of the history follow each other without a gap;
- each read is that of a plain map at its sequence, which is the end of a batch; the sequence is not below what the
  client has seen before, its own batches included;
- the printed state is the map at the published sequence;
- a commit and a read of a column family that there isn't are refused by the first such family;
- where a log has failed, each client is refused by that fault from some commit on, and at least one client is;
- a client that finds no memory learns it in its last line, and its call is not in the history;
- a token's line is answered by the client's own tokens. Where the client holds a stop token, each of its commits is
  refused: as its own stop, or, with `noslow`, by numbers that show a stop. Otherwise a commit is refused because
  writes are held up only with `noslow`, by numbers that show stops or delays, of no more clients than take such
  tokens. Without a wait of its own group it is so refused only where another client commits too.
"""

import os
import sys

sys.dont_write_bytecode = True
from plain_log import varint

ROOT = os.path.dirname(os.path.dirname(os.path.realpath(__file__)))
BUILT = os.environ.get("WRITEPATH", os.path.join(ROOT, "crates/writepath/out/writepath"))
KEYS = ["a", "b", "c", "d", "e"]

# How many seconds a run may take: many clients may take long where other programs have the processors.
LIMIT = 300


class Wrong(Exception):
    """An outcome that is not as it should be."""


def wanted(holds, what):
    if not holds:
        raise Wrong(what)


# A script is a list of clients, a client a list of lines, a line a list of words.


def text_of(script):
    """The script in the form in which the program reads it."""
    lines = []
    for number, commands in enumerate(script, 1):
        lines.append(f"client {number}")
        lines += [" ".join(words) for words in commands]
    return "".join(line + "\n" for line in lines)


def script_in(text):
    """The script that a text has."""
    script = []
    for words in (line.split(" ") for line in text.split("\n") if line and not line.startswith("#")):
        script.append([]) if words[0] == "client" else script[-1].append(words)
    return script


def string_bytes(text):
    return varint(len(text)) + text.encode()


# The tag of each record that names no family, and of those that name one.
TAGS = {"del": b"\x00", "put": b"\x01", "note": b"\x03", "sdel": b"\x07"}
TAGS_OF_FAMILIES = {"del": b"\x04", "put": b"\x05", "sdel": b"\x08"}


def adds(words):
    """Whether a line adds a record."""
    return words[0] in TAGS or words[0] in ("fput", "fdel", "fsdel")


def plain_of(words):
    """The family of a line, which is 0 where it names none, and the words of the line that names none."""
    if words[0] in ("fput", "fdel", "fsdel", "fget", "fscan"):
        return int(words[1]), [words[0][1:], *words[2:]]
    return 0, words


def places_of(words):
    """The keys of a read of several, each after its family."""
    if words[0] == "fmany":
        return [(int(family), key) for family, key in zip(words[1::2], words[2::2])]
    return [(0, key) for key in words[1:]]


def is_read(words):
    return words[0] in ("get", "many", "scan", "fget", "fmany", "fscan")


def families_of(words):
    """The families of the keys that a line names, in its order."""
    if words[0] in ("many", "fmany"):
        return [family for family, _ in places_of(words)]
    return [] if words[0] == "note" else [plain_of(words)[0]]


def first_missing(lines, families):
    """The first family of some lines that there isn't, or None."""
    return next((of for words in lines for of in families_of(words) if of >= families), None)


def record_bytes(words):
    family, (word, *texts) = plain_of(words)
    tag = TAGS[word] if family == 0 else TAGS_OF_FAMILIES[word] + varint(family)
    return tag + b"".join(string_bytes(text) for text in texts)


def count_of(records):
    """How many of some records take a sequence."""
    return sum(words[0] != "note" for words in records)


def changed(pairs, records):
    """The map after some records. Its keys are pairs of a family and a key in it."""
    pairs = dict(pairs)
    for words in records:
        family, (word, *texts) = plain_of(words)
        if word == "put":
            pairs[family, texts[0]] = texts[1]
        elif word != "note":
            pairs.pop((family, texts[0]), None)
    return pairs


def read_of(words, at, pairs):
    """What a read prints of a map."""
    if words[0] in ("many", "fmany"):
        found = [f" ={pairs[place]}" if place in pairs else " -" for place in places_of(words)]
        return f"many {at} {len(found)}" + "".join(found)
    family, (word, *keys) = plain_of(words)
    if word == "get":
        place = (family, keys[0])
        return f"val {at} {pairs[place]}" if place in pairs else f"nil {at}"
    rows = [(key, pairs[of, key]) for of, key in sorted(pairs) if of == family and keys[0] <= key < keys[1]]
    return f"scan {at} {len(rows)}" + "".join(f" {key} {value}" for key, value in rows)


def rows_of(pairs):
    """The lines of a map, by family and in a family by key. The default family isn't named."""
    return [f"{of} " * (of > 0) + f"{key} {pairs[of, key]}" for of, key in sorted(pairs)]


def sections_of(text, clients):
    """The clients' replies, and the lines from the history on."""
    lines = text.split("\n")
    wanted(lines.pop() == "", "the last line lacks its end")
    replies = []
    for number in range(1, clients + 1):
        wanted(lines.pop(0) == f"client {number}", f"the section of client {number}")
        own = []
        while lines and not lines[0].startswith(("client ", "history ")):
            own.append(lines.pop(0))
        replies.append(own)
    return replies, lines


def logs_in(lines):
    """The lengths of the logs in the one line that is left of an outcome, and the count of faults, if one failed."""
    wanted(len(lines) == 1 and lines[0].startswith("log "), f"the logs' line: {lines}")
    lens, _, fault = lines[0].removeprefix("log ").partition(" fault ")
    wanted(fault != "" or "fault" not in lines[0], f"the count of faults: {lines}")
    return [int(length) for length in lens.split(" ")], fault or None


def fault_of(lines):
    """The count of faults in the last line of an outcome, where a log has failed. A schedule has none."""
    return logs_in(lines[-1:])[1] if lines[-1].startswith("log ") else None


def lacks_memory(replies):
    """Whether a client has ended since a call found no memory."""
    return replies[-1:] == ["no memory"]


def flag_of(words):
    """What the history says of a commit."""
    return "nolog" if "nolog" in words else "sync" if "sync" in words else "log"


def token_reply(words, held):
    """The answer to a token's line. It takes the token or gives it back, by those that the client holds."""
    kind = words[0].removeprefix("un")
    if (words[0] == kind) == (kind in held):
        return "held" if words[0] == kind else "notheld"
    held ^= {kind}
    return "done"


def check_held_up(words, numbers, held, tokens):
    """Checks the numbers by which a commit was refused because writes are held up. `tokens` is how many clients take
    each kind of token, and how many commit."""
    stops, delays, wait = (int(number) for number in numbers)
    line = " ".join(["incomplete", *numbers])
    wanted("noslow" in words, f"no refusal of a commit that may wait: {line}")
    wanted(0 < stops or 0 < delays, f"stops or delays: {line}")
    wanted(stops <= tokens["stop"] and delays <= tokens["slow"], f"no more clients than take tokens: {line}")
    wanted(wait == 0 or stops == 0 < delays, f"a wait only where writes are slowed and not stopped: {line}")
    wanted("stop" not in held or 0 < stops, f"the client's own stop: {line}")
    wanted("stop" in held or wait > 0 or stops > 0 or tokens["commit"] > 1, f"no stall with one client: {line}")


def tokens_in(script):
    """How many clients take each kind of token, and how many commit."""
    kinds = ("stop", "slow", "commit")
    return {kind: sum(any(words[0] == kind for words in lines) for lines in script) for kind in kinds}


def calls_of(commands, replies, whole, fault, tokens, may_stall, families):
    """A client's accepted batches by its replies, the one whose answer it waits for, its reads with what it had seen
    before each, and whether a commit was refused by the log's fault, if there is one.

    Where the run is not whole, the replies may end early. They may too where the last one is that there was no memory;
    then the client waits for nothing. In a schedule in which leaders stall writes (`may_stall`), a commit that may not
    wait may be refused. A commit with a record, and a read, of a family that isn't one of the first `families` is
    refused by the first such family.
    """
    replies, ended = list(replies), lacks_memory(replies)
    if ended:
        replies.pop()
    pending, accepted, reads, seen, is_refused, held = [], [], [], 0, False, set()
    for words in commands:
        if adds(words):
            pending.append(words)
            continue
        lines = pending if words[0] == "commit" else [words] if is_read(words) else []
        missing = first_missing(lines, families)
        if not replies and (ended or not whole):
            waits = (flag_of(words), pending) if words[0] == "commit" and not ended else None
            return accepted, waits, reads, is_refused
        wanted(replies, f"a reply to {' '.join(words)}")
        reply = replies.pop(0).split(" ")
        if missing is not None:
            wanted(reply == ["no", "family", str(missing)], f"no family {missing}, not {' '.join(reply)}")
        elif words[0] in ("stop", "unstop", "slow", "unslow"):
            answer = token_reply(words, held)
            wanted(reply == [answer], f"{answer}, not {' '.join(reply)}")
        elif words[0] == "updates" and "stop" in held:
            wanted(reply == ["no", "selfstop"], f"no selfstop, not {' '.join(reply)}")
        elif words[0] == "commit":
            if may_stall and reply[:2] == ["no", "incomplete"]:
                wanted("noslow" in words and reply[2:] == ["1", "0", "0"], f"no incomplete 1 0 0, not {' '.join(reply)}")
                continue
            if reply[:2] == ["no", "incomplete"]:
                check_held_up(words, reply[2:], held, tokens)
                continue
            if "stop" in held:
                wanted("noslow" not in words and reply == ["no", "selfstop"], f"no selfstop, not {' '.join(reply)}")
                continue
            is_refused = is_refused or fault is not None and reply[0] == "no"
            if is_refused:
                wanted(reply == ["no", "logfault", fault], f"no logfault {fault}, not {' '.join(reply)}")
                continue
            wanted(reply[0] == "ok", f"ok, not {' '.join(reply)}")
            first, last = int(reply[1]), int(reply[2])
            wanted(last + 1 == first + count_of(pending), f"a run of {count_of(pending)}: {' '.join(reply)}")
            accepted.append((first, last, flag_of(words), pending))
            pending, seen = [], max(seen, last)
        else:
            at = int(reply[1])
            wanted(at >= seen, f"a read at {at} after one has seen {seen}")
            reads.append((words, at, " ".join(reply)))
            seen = at
    wanted(not replies, "no more replies than commands")
    return accepted, None, reads, is_refused


def check_updates(since, at, reply, batches):
    """Checks what a read of the log from a sequence on has printed that was made at another one, by the batches of the
    history: groups of the logged ones up to there, whole, the last ones, from the first on that ends at `since` or
    later.
    """
    logged = [
        (first, last, line.split(" ")[5]) for first, last, line, _ in batches if " nolog " not in line and last <= at
    ]
    word, _, count, *records = reply.split(" ")
    wanted(word == "updates" and int(count) == len(records), f"updates {at} and {len(records)} records, not {reply}")
    for record in reversed(records):
        head, own = bytes.fromhex(record[:24]), []
        first, left = int.from_bytes(head[:8], "little"), int.from_bytes(head[8:], "little")
        while logged and logged[-1][0] >= first:
            own.insert(0, logged.pop())
        wanted(own and own[0][0] == first and own[-1][1] >= since, f"a group from {since} on, not one at {first}")
        wanted(own[-1][1] + 1 - first == left, f"a group of {own[-1][1] + 1 - first} records, not of {left}")
        wanted(record[24:] == "".join(batch[24:] for _, _, batch in own), f"the batches of the group at {first}")
    wanted(not logged or logged[-1][1] < since, f"all groups from {since} on: {logged[-1:]}")


def updates_in(script, text):
    """Each read of the log in a script whose clients got all their replies, client by client, with its reply."""
    found = []
    for commands, replies in zip(script, sections_of(text, len(script))[0]):
        told = [words for words in commands if not adds(words)]
        found.append([(words, reply) for words, reply in zip(told, replies) if words[0] == "updates"])
    return found


def history_line(client, ordinal, first, flag, records):
    body, count = b"".join(record_bytes(words) for words in records), count_of(records)
    batch = first.to_bytes(8, "little") + count.to_bytes(4, "little") + body
    return f"{first} {first + count - 1} {client} {ordinal} {flag} {batch.hex()}"


def check_outcome(script, text, whole=True, before=(0, {}), may_stall=False, families=1):
    """Checks an outcome up to its state, and gives back the batches of its history, and the lines after the state.

    Where the run is not whole, the history may have one more batch of each client, whose answer the client hasn't got
    yet. `before` is the last sequence and the map that the run went on from. `may_stall` is for a schedule in which
    leaders stall writes. `families` is how many column families there are.
    """
    replies, rest = sections_of(text, len(script))
    fault = fault_of(rest)
    batches, waits, reads, are_refused, tokens = [], {}, [], False, tokens_in(script)
    for client, (commands, own) in enumerate(zip(script, replies), 1):
        found = calls_of(commands, own, whole, fault, tokens, may_stall, families)
        accepted, waiting, own_reads, is_refused = found
        are_refused = are_refused or is_refused
        for ordinal, (first, last, flag, records) in enumerate(accepted, 1):
            batches.append((first, last, history_line(client, ordinal, first, flag, records), records))
        if waiting:
            waits[client] = (len(accepted) + 1, *waiting)
        reads += own_reads
    wanted(are_refused or fault is None, f"a commit that is refused by fault {fault}")
    head = rest.pop(0).split(" ")
    wanted(head[0] == "history", "the history's head")
    lines = [rest.pop(0) for _ in range(int(head[1]))]
    for line in lines:
        first, client = int(line.split(" ")[0]), int(line.split(" ")[2])
        if client in waits and line == history_line(client, waits[client][0], first, *waits[client][1:]):
            records = waits.pop(client)[2]
            batches.append((first, first + count_of(records) - 1, line, records))
    batches.sort()
    wanted([batch[2] for batch in batches] == lines, f"the history {[batch[2] for batch in batches]}, not {lines}")
    end, pairs = before
    maps = {end: pairs}
    for first, last, _, records in batches:
        wanted(first == end + 1, f"the run after {end}")
        end, pairs = last, changed(pairs, records)
        maps[end] = pairs
    for words, at, reply in reads:
        wanted(at in maps, f"a read at the end of a batch, not at {at}")
        if words[0] == "updates":
            check_updates(int(words[1]), at, reply, batches)
            continue
        wanted(reply == read_of(words, at, maps[at]), f"{read_of(words, at, maps[at])}, not {reply}")
    state, at, count = rest.pop(0).split(" ")
    wanted(state == "state" and int(at) in maps and (not whole or int(at) == end), f"the state at a batch's end: {at}")
    wanted(int(count) == len(maps[int(at)]), f"the state's length {count}")
    for row in rows_of(maps[int(at)]):
        wanted(rest.pop(0) == row, f"the state's line {row}")
    return batches, rest


def check_recovery(batches, text):
    """The recovered groups are the logged batches in their order; one group may have several."""
    lines = text.split("\n")
    groups = int(lines.pop(0).split(" ")[1])
    logged = [(first, last) for first, last, line, _ in batches if " nolog " not in line]
    for _ in range(groups):
        first, count, _ = (int(word) for word in lines.pop(0).split(" "))
        while count > 0:
            wanted(logged and logged[0][0] == first, f"a logged batch at {first}")
            start, last = logged.pop(0)
            first, count = last + 1, count - (last + 1 - start)
        wanted(count == 0, "a group that ends with a batch")
    wanted(not logged, f"all logged batches, {len(logged)} are lost")
    wanted(lines[-2].endswith(" clean"), f"a clean end: {lines[-2]}")


def summary_of(seed, clients, batches):
    """The summary of a generated script, by a plain generator."""
    pairs, count = {}, 0
    for client in range(1, clients + 1):
        state = (seed + client) % 2**31

        def draw():
            nonlocal state
            state = (state * 1103515245 + 12345) % 2**31
            return state // 65536

        for _ in range(batches):
            for _ in range(1 + draw() % 4):
                key, kind = f"c{client}k{draw() % 100}", draw() % 4
                count += 1
                if kind == 0:
                    pairs.pop(key, None)
                else:
                    pairs[key] = draw() % 1000
    numbers = [clients, clients * batches, count, count, len(pairs), sum(pairs.values())]
    return "".join(f"{word} {n}\n" for word, n in zip(["clients", "batches", "records", "last", "keys", "sum"], numbers))


def main():
    with open(sys.argv[1]) as file:
        script = script_in(file.read())
    try:
        _, rest = check_outcome(script, sys.stdin.read())
        logs_in(rest)
    except (Wrong, ValueError, IndexError) as why:
        print(f"wanted {why}")
        return 1
    return 0


if __name__ == "__main__":
    sys.exit(main())
