"""What batches and replies say, in a few letters, for the scripts in this folder."""


def keys_of(records):
    """What a batch does to keys."""
    done = {"put": "{1}={2}", "del": "−{1}", "sdel": "−{1}"}
    return " ".join(done[words[0]].format(*words) for words in records if words[0] in done)


def seen_by(call, reply):
    """What a read saw, and at which sequence."""
    words = reply.split(" ")
    if call[0] == "get":
        pairs = [f"{call[1]}={words[2]}" if words[0] == "val" else f"no {call[1]}"]
    elif call[0] == "many":
        pairs = [f"{key}{it}" if it != "-" else f"no {key}" for key, it in zip(call[1:], words[3:])]
    else:
        pairs = [f"{key}={value}" for key, value in zip(words[3::2], words[4::2])] or ["nothing"]
    return f"{', '.join(pairs)} at {words[1]}"
