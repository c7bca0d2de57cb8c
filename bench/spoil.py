#!/usr/bin/env python3
"""spoil.py TRACE KIND LINE: writes TRACE to standard output with one beat spoiled, that of the first
line from LINE on of the KIND: `drop X` leaves out the first beat of channel X; `source X`, `size X`,
`param X` and `address X` change that field of it."""
import sys

FIELD = {"param": 3, "size": 4, "source": 5, "address": 6}


def spoiled(fields, kind):
    place = FIELD[kind]
    digits = len(fields[place])
    step = 64 if kind == "address" else 1
    top = {"param": 3}.get(kind, 16**digits)
    fields[place] = "%0*x" % (digits, (int(fields[place], 16) + step) % top)
    return fields


def spoil(lines, kind, channel, first):
    """The lines of a trace with that one beat spoiled."""
    done = False
    for number, line in enumerate(lines, 1):
        fields = line.split()
        if not done and number >= first and number > 1 and fields[1] == channel:
            done = True
            if kind == "drop":
                continue
            line = " ".join(spoiled(fields, kind)) + "\n"
        yield line


if __name__ == "__main__":
    path, kind, channel, first = sys.argv[1], sys.argv[2], sys.argv[3], int(sys.argv[4])
    sys.stdout.writelines(spoil(open(path), kind, channel, first))
