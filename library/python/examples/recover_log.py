"""Recovers a log, and prints what it leaves.

    recover_log.py LOG [NUMBER [point|tail|absolute]]

NUMBER is the log's own, or 0 where it has none. Where the mode doesn't accept the end, it prints `damage` with the end,
and the status is 8.
"""

import sys

import wolzenn


def main():
    path, number, mode = [*sys.argv[1:], *["0", "point"][len(sys.argv) - 2 :]]
    with open(path, "rb") as file:
        log = file.read()
    try:
        recovery = wolzenn.recover(log, int(number), wolzenn.Mode[mode.upper()])
    except wolzenn.Damage as damage:
        print("damage", damage.end)
        return 8
    print("groups", recovery.groups)
    print("state", recovery.last, len(recovery))
    for family, key, value in recovery:
        # The default family isn't named.
        print(*([family] if family else []), key.hex() or "-", value.hex() or "-")
    print("end", recovery.end)
    return 0


sys.exit(main())
