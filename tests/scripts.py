"""Scripts of clients that write and read the same keys, as `race`, `kill` and `faults` in this folder draw them.

`damage` takes its options from here too.
"""

from outcomes import KEYS

# The options of a write path, which alternate: one tree and three shards, in one stage and in two.
THREE_SHARDS = ["--shards", "3", "--table", "shards"]
PATHS = [[], THREE_SHARDS, ["--pipelined"], [*THREE_SHARDS, "--pipelined"]]


# Rates of slow tokens, in bytes a second: groups wait for a millisecond or a little longer.
RATES = ["1000000", "100000000"]


def script_of(draw, is_named=False, count=None, has_tokens=False, families=1):
    """A script of clients that write and read the same keys: of this number, or mostly of 2 to 16 and otherwise of up
    to 64.

    Where it should have tokens, clients stop and slow writes, and some commits may not wait. Where its batches should
    have names, each begins with a note of its client and of how many batches of that client come before it, as `3.0`,
    and some scripts have long values. Where there are several families, records are of any of them, and reads of one
    more, which there isn't.
    """
    # Where a group has many records, its clients are woken in two stages over shards, each to insert its own.
    least, most = draw.choice([(1, 4), (1, 4), (16, 40)])
    width = draw.choice([0, 0, 0, 400]) if is_named and most == 4 else 0
    clients = []
    many = draw.choice([16, 16, 16, 64])
    for client in range(draw.randint(2, many) if count is None else count):
        lines = []
        for turn in range(draw.randint(1, 12)):
            if is_named:
                lines.append(["note", f"{client + 1}.{turn}"])
            for record in range(draw.randint(least, most)):
                key = draw.choice(KEYS)
                if draw.random() < 0.3:
                    line = [draw.choice(["del", "sdel"]), key]
                else:
                    line = ["put", key, f"{client + 1}.{turn}.{record}".ljust(width, "v")]
                lines.append(in_family(line, draw.randrange(families)))
            if has_tokens and draw.random() < 0.3:
                lines.append(draw.choice([["stop"], ["unstop"], ["slow", draw.choice(RATES)], ["unslow"]]))
            flags = draw.choice([(), (), (), ("sync",), ("nolog",)])
            if has_tokens and draw.random() < 0.4:
                flags = (*flags, "noslow")
            lines.append(["commit", *flags])
            for _ in range(draw.randint(0, 2)):
                line = draw.choice([["get", draw.choice(KEYS)], ["many", *KEYS], ["scan", "b", "e"], ["scan", "a", "z"]])
                if line[0] == "many" and families > 1:
                    places = [[str(draw.randrange(families)), key] for key in KEYS]
                    places += [[str(families), "a"]] * (draw.random() < 0.1)
                    line = ["fmany", *(word for place in places for word in place)]
                elif families > 1:
                    line = in_family(line, draw.randrange(families + 1))
                lines.append(line)
        clients.append(lines)
    return clients


def with_followers(draw, script):
    """The script with more clients, which only read the log: each from several sequences on, and at last all of it. Some
    of the others read it too, after a commit.
    """

    def line():
        return ["updates", str(draw.choice([0, 0, 1, draw.randint(0, 200)]))]

    writers = [
        [it for words in lines for it in ([words, line()] if words[0] == "commit" and draw.random() < 0.2 else [words])]
        for lines in script
    ]
    followers = [[line() for _ in range(draw.randint(1, 20))] + [["updates", "0"]] for _ in range(draw.randint(1, 3))]
    return [*writers, *followers]


def in_family(line, family):
    """The same line of a key of a family. The default one isn't named."""
    return line if family == 0 else [f"f{line[0]}", str(family), *line[1:]]


def options_of_families(families):
    """The options of a run with this many column families. There is one anyway."""
    return [] if families == 1 else ["--families", str(families)]
