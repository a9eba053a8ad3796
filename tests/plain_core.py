"""The core of the write path as a plain program: it takes events one by one, and knows what `replay` prints of them.

`tools/diagram` draws its states. It follows the table "The events of the core" of docs/ARCHITECTURE.md and
docs/FORMATS.md, and nothing of the program's own. Clients are numbered from 1, and a line of a script is a list of
words.
"""

from outcomes import changed, count_of, first_missing, flag_of, history_line, is_read, read_of, record_bytes, rows_of

# The greatest sequence.
GREATEST = 2**56 - 1

# A batch begins with its sequence and its count.
BATCH_HEADER = 12

# What a commit that may not wait is told where a leader stalls writes.
HELD_UP = "no incomplete 1 0 0"

# What a client waits in the queue for: a batch, or a read of the log.
LINKED = ("commit", "updates")

# Events that have methods of other names, since their own are taken.
TAKEN_BY = {"log": "log_group", "second": "to_second", "leave": "leave_queue"}


def schedule_of(text):
    """The script, and the events as pairs of a word and a client's number, in a text for `replay`."""
    script, events = [], None
    for line in text.split("\n"):
        words = line.split(" ")
        if line == "" or line.startswith("#"):
            continue
        if events is not None:
            events.append((words[0], int(words[1])))
        elif line == "schedule":
            events = []
        elif words[0] == "client":
            script.append([])
        else:
            script[-1].append(words)
    return script, events


class Client:
    """A client: its lines that are left, the records of its batch, its answered calls with their replies, and whether
    it waits for no answer.
    """

    def __init__(self, lines):
        self.left, self.pending, self.calls, self.replies, self.is_idle = list(lines), [], [], [], True

    def next_call(self):
        """Its next commit or read, of keys or of the log, if there is one. Lines before it that add to its batch, or empty it, are done."""
        while self.left and self.left[0][0] not in LINKED and not is_read(self.left[0]):
            words = self.left.pop(0)
            self.pending = [] if words[0] == "clear" else [*self.pending, words]
        return self.left[0] if self.left else None

    def is_told(self, reply):
        self.calls.append(self.left.pop(0))
        self.replies.append(reply)
        self.is_idle = True


class Writer:
    """A batch on its way: its client, how it is committed, its run of sequences once it has one, and its answer. Or a read
    of the log from the sequence `since` on.
    """

    def __init__(self, client, call, records):
        self.client, self.since = client, int(call[1]) if call[0] == "updates" else None
        self.flags, self.records = (set(call[1:]), records) if self.since is None else (set(), [])
        self.size = BATCH_HEADER + sum(len(record_bytes(words)) for words in records)
        self.run, self.answer = None, None


def goes_with(leader, writer):
    """Whether a writer may be in this leader's group, without a look at the sizes. Who reads the log is alone."""
    return leader.since is None and writer.since is None and not ("sync" in writer.flags and "sync" not in leader.flags) and all(
        (flag in writer.flags) == (flag in leader.flags) for flag in ("noslow", "nolog")
    )


def group_len(queue, group_bytes):
    """How many writers of a queue make a group: those that fit, up to the first that doesn't."""
    leader = queue[0]
    cap = leader.size + group_bytes // 8 if leader.size <= group_bytes // 8 else group_bytes
    count, total = 1, leader.size
    for writer in queue[1:]:
        total += writer.size
        if not goes_with(leader, writer) or total > cap:
            break
        count += 1
    return count


class Core:
    """The state. The log is `free`, or a group has it and it is `led`, `built`, `stalled`, `in log`, `marked` or
    `handed`. The table is `still`, `launched` or `published`.
    """

    def __init__(self, script, is_pipelined=False, group_bytes=2**20, batch_bytes=2**24, last=0, families=1):
        self.is_pipelined, self.group_bytes, self.batch_bytes = is_pipelined, group_bytes, batch_bytes
        self.families = families
        self.clients = [Client(lines) for lines in script]
        self.queue, self.log, self.in_hand, self.log_failed = [], "free", [], False
        self.second, self.table, self.inserted, self.finished = [], "still", [], []
        # A logged or published batch: its last sequence, its client, its line of the history, and its records.
        self.entries, self.given, self.published, self.leaving = [], last, last, []
        # The log's groups: the last sequence of each, and its record.
        self.groups = []

    def take(self, event, number):
        """Takes an event where it may come, and says whether it did."""
        return getattr(self, TAKEN_BY.get(event, event))(number)

    # What a client waits for.

    def link(self, number):
        client = self.clients[number - 1]
        call = client.next_call() if client.is_idle else None
        if call is None or call[0] not in LINKED:
            return False
        writer = Writer(number, call, client.pending)
        refusal = self.refusal_of(writer) if writer.since is None else None
        if refusal is None and self.log == "stalled":
            if "noslow" not in writer.flags:
                return False
            refusal = HELD_UP
        if refusal is None:
            client.is_idle = False
            self.queue.append(writer)
        else:
            client.is_told(refusal)
        return True

    def refusal_of(self, writer):
        if count_of(writer.records) == 0:
            return "no empty"
        if writer.size > self.batch_bytes:
            return f"no large {writer.size}"
        if {"sync", "nolog"} <= writer.flags:
            return "no syncwithoutlog"
        return self.no_family(writer.records)

    def no_family(self, lines):
        """The refusal of lines of which one is about a family that there isn't."""
        missing = first_missing(lines, self.families)
        return None if missing is None else f"no family {missing}"

    def complete(self, number):
        for writer in self.leaving:
            if writer.client == number:
                self.leaving.remove(writer)
                if writer.run is not None:
                    self.clients[number - 1].pending = []
                self.clients[number - 1].is_told(writer.answer)
                return True
        return False

    def read(self, number):
        client = self.clients[number - 1]
        call = client.next_call() if client.is_idle else None
        if call is None or call[0] in LINKED:
            return False
        client.is_told(self.no_family([call]) or read_of(call, self.published, self.published_map()))
        return True

    # The log.

    def leads(self, number, phase):
        return self.log == phase and self.in_hand[0].client == number

    def elect(self, number):
        if self.log != "free" or not self.queue or self.queue[0].client != number:
            return False
        self.log, self.in_hand = "led", self.queue[:1]
        return True

    def build(self, number):
        if not self.leads(number, "led"):
            return False
        count = group_len(self.queue, self.group_bytes)
        self.log, self.in_hand, self.queue = "built", self.queue[:count], self.queue[count:]
        return True

    def leave(self, group):
        """The group's members leave with their answers, and the log is free."""
        self.leaving += group
        self.log, self.in_hand = "free", []

    def give_runs(self):
        """Gives the members runs in order; one whose run doesn't fit is refused, and later ones may still fit."""
        for writer in self.in_hand:
            last = self.given + count_of(writer.records)
            if last > GREATEST:
                writer.answer = f"no full {self.given}"
                continue
            writer.run, writer.answer = (self.given + 1, last), f"ok {self.given + 1} {last}"
            ordinal = 1 + sum(client == writer.client for _, client, _, _ in self.entries)
            flag = flag_of([flag for flag in ("sync", "nolog") if flag in writer.flags])
            line = history_line(writer.client, ordinal, self.given + 1, flag, writer.records)
            self.entries.append((last, writer.client, line, writer.records))
            self.given = last

    def leads_writers(self, number):
        return self.leads(number, "built") and self.in_hand[0].since is None

    def log_group(self, number):
        if not self.leads_writers(number) or self.log_failed:
            return False
        self.give_runs()
        if all(writer.run is None for writer in self.in_hand):
            self.leave(self.in_hand)
            return True
        self.log = "in log"
        if "nolog" not in self.in_hand[0].flags:
            members = [writer for writer in self.in_hand if writer.run is not None]
            records = [words for writer in members for words in writer.records]
            line = history_line(0, 0, members[0].run[0], "log", records)
            self.groups.append((members[-1].run[1], line.split(" ")[-1]))
        return True

    def since(self, number):
        """Who reads the log is answered with what it has up to the published sequence."""
        if not self.leads(number, "built") or self.in_hand[0].since is None or self.in_hand[0].answer is not None:
            return False
        writer = self.in_hand[0]
        records = [f" {record}" for last, record in self.groups if writer.since <= last <= self.published]
        writer.answer = f"updates {self.published} {len(records)}" + "".join(records)
        return True

    def fault(self, number):
        if not self.leads_writers(number):
            return False
        for writer in self.in_hand:
            writer.answer = "no logfault 1"
        self.leave(self.in_hand)
        self.log_failed = True
        return True

    def stall(self, number):
        if not self.leads_writers(number) or "noslow" in self.in_hand[0].flags:
            return False
        self.log = "stalled"
        return True

    def unstall(self, number):
        if not self.leads(number, "stalled"):
            return False
        self.log = "built"
        return True

    def leave_queue(self, number):
        """A writer that waits in the queue, and may not be slowed down, leaves it."""
        for writer in self.queue if self.log == "stalled" else []:
            if writer.client == number and "noslow" in writer.flags:
                writer.answer = HELD_UP
                self.queue.remove(writer)
                self.leaving.append(writer)
                return True
        return False

    def boundary(self, number):
        if not self.is_pipelined or not self.leads(number, "in log"):
            return False
        self.log = "marked"
        return True

    def to_second(self, number):
        if not self.leads(number, "marked"):
            return False
        self.log = "handed"
        self.second.append(self.in_hand)
        return True

    def next(self, number):
        if not self.leads(number, "handed"):
            return False
        self.log, self.in_hand = "free", []
        return True

    # The table.

    def table_group(self):
        """The group that is in the table, or the next to come there."""
        if self.is_pipelined:
            return self.second[0] if self.second else []
        return self.in_hand if self.log == "in log" else []

    def runners(self):
        """Its members that have a run."""
        return [writer.client for writer in self.table_group() if writer.run is not None]

    def leads_table(self, number, phase):
        group = self.table_group()
        return self.table == phase and bool(group) and group[0].client == number

    def launch(self, number):
        if not self.leads_table(number, "still"):
            return False
        self.table, self.inserted, self.finished = "launched", [], []
        return True

    def insert(self, number):
        if self.table != "launched" or number not in self.runners() or number in self.inserted:
            return False
        self.inserted.append(number)
        return True

    def finish(self, number):
        if self.table != "launched" or number not in self.inserted or number in self.finished:
            return False
        self.finished.append(number)
        return True

    def publish(self, number):
        has_all = self.table == "launched" and {*self.runners()} <= {*self.finished}
        if not has_all or self.finished[-1] != number:
            return False
        self.table = "published"
        self.published = max(writer.run[1] for writer in self.table_group() if writer.run is not None)
        return True

    def exit(self, number):
        if self.leads(number, "built") and self.in_hand[0].since is not None and self.in_hand[0].answer is not None:
            self.leave(self.in_hand)
            return True
        if not self.leads_table(number, "published"):
            return False
        group, self.table = self.table_group(), "still"
        if self.is_pipelined:
            self.second.pop(0)
            self.leaving += group
        else:
            self.leave(group)
        return True

    # What is printed.

    def published_map(self):
        pairs = {}
        for last, _, _, records in self.entries:
            pairs = changed(pairs, records) if last <= self.published else pairs
        return pairs

    def text(self, taken, skipped):
        """What `replay` prints after these numbers of events were taken and skipped."""
        lines, pairs = [f"events {taken} skipped {skipped}"], self.published_map()
        for number, client in enumerate(self.clients, 1):
            lines += [f"client {number}", *client.replies]
        lines += [f"history {len(self.entries)}", *(line for _, _, line, _ in self.entries)]
        lines += [f"state {self.published} {len(pairs)}", *rows_of(pairs)]
        return "".join(line + "\n" for line in [*lines, f"groups {len(self.groups)}"])
