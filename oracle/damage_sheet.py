"""Damaged shift sheets: what our library answers and leaves in lent memory, against docs/SHEET.md as oracle/sheet.py has it.

    damage_sheet.py COUNT --seed WORD [--library PATH]      after `tools/build sheet_exports`; PATH is that library unless named

Random lists are written and read, with enough room and with too little, and lists that are wrong in one thing are refused. Then each sheet
is damaged in every way of sheet_inputs.py, until there are COUNT damaged sheets. Prints how many of each kind of damage there were, and how
many of these are sheets; of what differs, the smallest. Exit status 1 if anything differs.
"""

import argparse
import random
from collections import Counter
from pathlib import Path

import sheet
from sheet_calls import ARCHIVE, LENGTHS, Bytes, Library, Stores, listed, scattered
from sheet_inputs import DAMAGES, OTHER_NANS, damaged, fixed_lists, is_small, some_list, wrong_lists

NO_SHEET, UNLIKE, TOO_SHORT, NO_LIST = 15, 11, 10, 8
ROOM = sheet.RECORD * sheet.RECORDS_MOST


class Run:
    """The library's calls, each judged: what was tried and what differs."""

    def __init__(self, library, draw):
        self.library, self.draw = library, draw
        self.stores, self.out = Stores(draw), Bytes(draw)
        self.tried, self.accepted, self.calls, self.wrong = Counter(), Counter(), Counter(), []

    def note(self, what, data, difference):
        if difference:
            self.wrong.append((len(data), f"{what}: {difference}", data.hex()))

    # Reading.

    def read(self, what, data, lengths=LENGTHS):
        """Whether the bytes are a sheet. What the call answers and leaves must be what the page says."""
        expected = sheet.decode(data)
        difference = self.refuses(data, lengths, NO_SHEET) if expected is None else self.takes(*expected, data, lengths)
        self.note(what, data, difference)
        if expected or difference:
            self.stores.put(self.stores.before)
        return expected is not None

    def refuses(self, data, lengths, due):
        number, *_ = self.library.read(data, self.stores, lengths)
        if number != due:
            return f"read answers {number}, {due} is due"
        return "" if self.stores.block == self.stores.before else f"read answers {number} and changes the stores"

    def takes(self, header, points, data, lengths):
        """Read into the stores, or refused with 10 where they are short; and written again."""
        list_ = listed(points)
        if any(have < need for have, need in zip(lengths, list_.lengths())):
            return self.refuses(data, lengths, TOO_SHORT)
        answer = self.library.read(data, self.stores, lengths)
        if answer != (0, header, len(points)):
            return f"read answers {answer}, {(0, header, len(points))} is due"
        if self.stores.block != self.stores.with_list(list_):
            return "read answers 0 and leaves something else in the stores"
        return self.writes(header, len(points), LENGTHS, ROOM, 0, data)

    # Writing, of the list that lies in the stores.

    def writes(self, header, many, lengths, room, due, data):
        held = bytes(self.stores.block)
        number, size = self.library.write(header, many, self.stores, lengths, self.out, room)
        right = self.out.block == self.out.with_sheet(data)
        self.out.put(self.out.before)
        if number != due or (due == 0 and size != len(data)):
            return f"write answers {number}, {size}; {due}, {len(data)} is due"
        return "" if right and self.stores.block == held else f"write answers {number} and leaves something else"

    def write(self, what, made, list_, due, many=None, lengths=None, room=ROOM):
        """One call of the writer, of a list that comes from a made one."""
        self.calls[due] += 1
        self.stores.put(self.stores.with_list(list_))
        many, data = len(list_.words) if many is None else many, b"" if due else made.data
        self.note(what, made.data, self.writes(made.header, many, lengths or list_.lengths(), room, due, data))
        self.stores.put(self.stores.before)


# What is asked of each list, before its sheet is damaged.


def check_room(run, made):
    """Enough, more than enough, too few bytes."""
    list_ = listed(made.points)
    run.write("the list as it is read", made, list_, 0)
    run.write("its bounds anywhere", made, scattered(run.draw, made.points), 0)
    run.write("in longer stores", made, list_, 0, lengths=LENGTHS)
    run.write("into as many bytes as it has", made, list_, 0, room=len(made.data))
    for less in (1, 31, 32):
        run.write(f"into {less} bytes less", made, list_, TOO_SHORT, room=len(made.data) - less)
    run.read("the sheet itself", made.data)
    run.read("the sheet itself into as much as it takes", made.data, list_.lengths())


def check_short_stores(run, made):
    """One element less in a store: too short to read into, and no list to write. What is no sheet is none whatever the stores."""
    list_ = listed(made.points)
    for store, length in enumerate(list_.lengths()):
        if length:
            lengths = [have - (place == store) for place, have in enumerate(list_.lengths())]
            run.calls["short"] += 1
            run.read(f"store {store} one too short", made.data, lengths)
            run.read(f"store {store} one too short, and form 1", made.data[:4] + b"\1" + made.data[5:], lengths)
            run.write(f"store {store} one too short", made, list_, NO_LIST, lengths=lengths)
            run.write(f"store {store} one too short, and no bytes", made, list_, NO_LIST, lengths=lengths, room=0)
    run.write("one point more than there is", made, list_, NO_LIST, many=len(made.points) + 1)
    run.write("2^64 - 1 points", made, list_, NO_LIST, many=2**64 - 1)


def check_wrong_rows(run, made):
    """Rows of a list that no set and no point is written as."""
    list_ = listed(made.points)
    for place in run.draw.sample(range(len(made.points)), min(len(made.points), 3)):
        for what, row in wrong_set_rows(list_.sets[place]):
            run.write(what, made, list_._replace(sets=replaced(list_.sets, place, row)), NO_LIST)
        for what, row in wrong_words(list_.words[place], len(list_.bounds)):
            run.write(what, made, list_._replace(words=replaced(list_.words, place, row)), NO_LIST)


def replaced(rows, place, row):
    return rows[:place] + [row] + rows[place + 1 :]


def wrong_set_rows(row):
    size = row[8]
    if size < 8:
        yield "something behind the attributes", replaced(row, 7, row[7] + 1)
        yield "something right behind the attributes", replaced(row, size, 2**64 - 1)
    yield "9 attributes", replaced(row, 8, 9)
    yield "2^64 - 1 attributes", replaced(row, 8, 2**64 - 1)
    yield "no attributes, and the word of one", [1, 0, 0, 0, 0, 0, 0, 0, 0]
    yield "keys that fall", [2 << 32, 1 << 32, 0, 0, 0, 0, 0, 0, 2]
    yield "equal keys", [1 << 32, 1 << 32 | 1, 0, 0, 0, 0, 0, 0, 2]


def wrong_words(words, bounds):
    """Words that are no point's, extremes against request L4, counts and bounds that are not lent."""
    yield "kind 4", replaced(words, 0, 4)
    yield "flags above 3", replaced(words, 8, words[8] + 4)
    yield "extremes with the switch off", replaced(words, 8, 2)
    yield "a NaN sum of other bits", replaced(words, 11, OTHER_NANS[0])
    yield "a NaN minimum of other bits", [*words[:8], 3, OTHER_NANS[1], *words[10:]]
    if words[8] < 2:
        yield "bits of a minimum that is not shown", replaced(words, 9, 1)
        yield "bits of a maximum that is not shown", replaced(words, 10, 1)
    yield from (wrong_explicit_words(words, bounds) if words[0] else wrong_exponential_words(words))


def wrong_explicit_words(words, bounds):
    for place in (2, 3, 6, 7):
        yield f"word {place} of an explicit point", replaced(words, place, 1)
    for start in (bounds - words[5] + 1, bounds + 1, 2**64 - 1):
        yield f"bounds from {start} on, of {bounds}", replaced(words, 4, start)
    yield "2^64 - 1 bounds", replaced(words, 5, 2**64 - 1)


def wrong_exponential_words(words):
    for place in (3, 4, 6):
        yield f"word {place} with 2^32 more", replaced(words, place, words[place] + 2**32)
    for place in (5, 7):
        yield f"a row of 2^64 - 1 counts, word {place}", replaced(words, place, 2**64 - 1)


def check_whole_points(run, made):
    """Request L6: a point over i64, which its kind says, is 11, before 10, and after the 8 of any point and any set."""
    list_ = listed(made.points)
    for place in run.draw.sample(range(len(made.points)), min(len(made.points), 3)):
        words = [list_.words[place][0] + 2, *list_.words[place][1:]]
        any_numbers = [run.draw.getrandbits(64) if words[8] >= 2 or at == 11 else 0 for at in (9, 10, 11)]
        for row in (words, [*words[:9], *any_numbers]):
            wholes = list_._replace(words=replaced(list_.words, place, row))
            run.write("a point over i64", made, wholes, UNLIKE)
            run.write("a point over i64, and no bytes", made, wholes, UNLIKE, room=0)
            for at in {place, run.draw.randrange(len(made.points))}:
                wrong = replaced(wholes.words[at], 8, 2)
                run.write("a point over i64, and extremes with the switch off", made, wholes._replace(words=replaced(wholes.words, at, wrong)), NO_LIST)
                wrong = replaced(wholes.sets[at], 8, 9)
                run.write("a point over i64, and 9 attributes", made, wholes._replace(sets=replaced(wholes.sets, at, wrong)), NO_LIST)


def check_wrong_lists(run, made):
    """Lists that are wrong in one thing, or only nearly: the writer takes those whose bytes are a sheet."""
    for points in wrong_lists(run.draw, made.points if is_small(made) else made.points[:2]):
        if can_be_listed(points):
            data = sheet.encode(made.header, points)
            run.write("a wrong list", made._replace(data=data), listed(points), 0 if sheet.decode(data) else NO_LIST)


def can_be_listed(points):
    """A list has as many buckets as the bounds ask."""
    return all(len(p.buckets) == (len(p.bounds) + 1 if p.bounds else 0) for p in points if isinstance(p, sheet.Explicit))


def check(run, made):
    for checks in (check_room, check_short_stores, check_wrong_rows, check_whole_points, check_wrong_lists):
        checks(run, made)


def damage(run, made):
    for kind, data in damaged(run.draw, made):
        run.tried[kind] += 1
        run.accepted[kind] += run.read(kind, data)


# The command.


def report(run, lists):
    calls, tried, accepted = run.calls, run.tried.total(), run.accepted.total()
    refused = f"refused with 8 {calls[NO_LIST]}, with 10 {calls[TOO_SHORT]}, with 11 {calls[UNLIKE]}"
    print(f"{lists} lists; writes {calls[0]}, {refused}; reads into short stores {calls['short']}\n")
    print("| damage | sheets | accepted |", "|---|---|---|", sep="\n")
    for kind in DAMAGES:
        print(f"| {kind} | {run.tried[kind]:,} | {run.accepted[kind]:,} |")
    print(f"| in all | {tried:,} | {accepted:,} |\n")
    if run.wrong:
        length, difference, data = min(run.wrong)
        print(f"DIFFERS, the smallest: {length} bytes, {difference}", data, sep="\n")
    print(f"{tried} sheets, {accepted} accepted, {len(run.wrong)} differ")


def run_all(library, count, seed):
    draw = random.Random(seed)
    run, lists, waiting = Run(library, draw), 0, fixed_lists()
    while waiting or run.tried.total() < count:
        made = waiting.pop(0) if waiting else some_list(draw)
        check(run, made)
        damage(run, made)
        lists += 1
    report(run, lists)
    return not run.wrong


def main():
    parser = argparse.ArgumentParser(description=__doc__.splitlines()[0])
    parser.add_argument("count", type=int)
    parser.add_argument("--seed", required=True)
    parser.add_argument("--library", type=Path, default=ARCHIVE)
    given = parser.parse_args()
    raise SystemExit(0 if run_all(Library(given.library), given.count, given.seed) else 1)


if __name__ == "__main__":
    main()
