"""Document 01's gauge program, as the reference sees it.

    gauge.py < INPUT            prints exactly what the gauge program prints
"""

import sys

from reference import Reference
from script import LINE_MOST, Unreadable, split_lines, unreadable

LIMIT_MOST = 30


def as_script(line):
    """The script line (docs/REPLAY.md) of a gauge line: delta, everything recorded, no filter."""
    fields = line.split(" ")
    if len(line) > LINE_MOST:
        raise Unreadable
    if fields[0] == "e" and len(fields) == 5:
        size, scale, limit, start = fields[1:]
        if limit.isdecimal() and int(limit) > LIMIT_MOST:
            raise Unreadable
        return f"n e f {size} {scale} - {limit} d 1 1 {start}"
    if fields[0] == "r" and len(fields) == 3:
        return line
    if fields[0] == "c" and len(fields) == 2:
        return f"{line} - -"
    raise Unreadable


def run(lines, made=Reference):
    """What is printed; the lines are answered by the reference, or by another that is made so (card.py)."""
    reference = made()
    for number, line in enumerate(lines, 1):
        try:
            answers, refusal = reference.line(number, as_script(line))
        except Unreadable:
            answers, refusal = [], None
        yield from answers if refusal == 0 else [unreadable(number)]


def answer(text, made=Reference):
    """All that the program prints for an input; bytes are read as Latin-1, so that each is one character."""
    return "".join(f"{line}\n" for line in run(split_lines(text), made))


def main():
    sys.stdout.write(answer(sys.stdin.buffer.read().decode("latin-1")))


if __name__ == "__main__":
    main()
