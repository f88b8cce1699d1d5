"""Random scripts with damage: what our program answers and leaves in every cell, against the model of the stores.

    damage.py COUNT [OPTIONS] COMMAND       e.g. damage.py 1000 target/bin/replay; options as generate.py

A script of generate.py gets lines `d` and `s` among its own. Prints the smallest script that differs, or how many lines were the same. Exit
status 1 if any differs.
"""

import random

import generate
import machine
import script
from bits import CANONICAL_NAN, GREATEST, INFINITY, SIGN
from runs import answered, smallest
from words import is_point

EDGES = (0, 1, 2, 3, 20, 21, 160, 161, 2**32 - 1, 2**32, 2**63, 2**64 - 2, 2**64 - 1)
FLOATS = (0, SIGN, 1, GREATEST, INFINITY, CANONICAL_NAN, 0x3FF0000000000000, 0x4014000000000000)
WHOLES = (0, 1, -1, 2**62, 2**63 - 1, 2**63 - 2, -(2**63), 1 - 2**63, 10**6)
PLACES = {"s": 9, "e": 3, "o": 1, "f": 8, "m": 3, "t": 1, "l": 1}
STORES, SINGLE_STORES = "sseeoofffmmpppnnttbvvwwPN", "sseeoollllllvvbtm"  # the more often, the more may come of it


def damage(draw, stores, kind):
    """A cell that is in use more often than not, under a number kind."""
    store = draw.choice(stores)
    number = draw.choice((draw.choice(EDGES), draw.randint(0, 8)))
    if store in script.FLOAT_STORES:
        number = draw.choice(FLOATS if script.holds_bits(store, kind) else WHOLES)
    if store in PLACES:
        return script.damage(store, draw.randint(0, 4), draw.randrange(PLACES[store]), number % 2**32 if store == "o" else number, kind)
    if store in "pn":
        return script.damage(store, draw.choice((draw.randint(0, 12), draw.randint(0, 700))), 0, number)
    if store == "b":
        return script.damage(store, draw.randint(0, 3), 0, number)
    if store == "v":
        return script.damage(store, 0, draw.randrange(6), number)
    if store == "w":
        cell = draw.randrange(12)
        return script.damage(store, draw.randrange(5), cell, draw.choice(FLOATS if kind == "f" else FLOATS + WHOLES) if cell > 8 else number)
    return script.damage(store, draw.randrange(5), draw.randint(0, 9), number)


def some_damage(draw, stores):
    return damage(draw, SINGLE_STORES if stores.is_single() else STORES, stores.number())


def kept_damage(draw, held):
    """A cell of a kept point, mostly a little off, and the point merged with another."""
    kept = [k for k in range(5) if is_point(held.out_words[machine.PLACES + k])]
    if not kept:
        return []
    k, store = draw.choice(kept), draw.choice("wwwwPPNB")
    cell = draw.randrange(12) if store == "w" else draw.randint(0, 3)
    number = draw.choice((*EDGES, *FLOATS, *WHOLES, *(held.out_words[machine.PLACES + k][cell] + more for more in (-1, -1, 1, 1, 2, 2))))
    if store in "PN":
        number = draw.randint(0, 3)
    pair = draw.sample([k, draw.choice(kept)], 2)
    size, counts = draw.choice((160, 160, 160, 2)), draw.choice((None, None, 0))
    return [script.damage(store, k, cell, number % 2**64), script.Merge(draw.randint(5, 7), *pair, size, counts)]


def full(draw, held, batches):
    """Cells that make a count, a binding count or the last birth number as large as it can be, or one less, and still agree; or a value of a sum or
    last value; or a sum of whole numbers at an end of i64. With batches a few less too, so that some of their values are counted."""
    most = 2**64 - draw.choice((1, 2, 3, 6) if batches else (1, 1, 2))
    stores = held.map
    updated = [slot for slot in range(min(stores.used, 63) + 1) if stores.updated(slot)]
    what = draw.choice(("birth", "bindings", "series", "series", "point") + ("sum", "sum", "total") * (stores.number() == "i"))
    if what == "birth":
        return [script.damage("v", 0, 2, most)]
    if what == "bindings":
        return [script.damage("e", draw.randint(0, min(stores.used, 63)), 1, most)]
    if what == "point":
        return full_words(draw.randrange(5), held, most)
    if what == "total":
        return [script.damage("w", draw.randrange(5), 11, draw.choice(WHOLES))]
    if not updated:
        return []
    slot = draw.choice(updated)
    if what == "sum":
        return [script.damage("m", slot, 2, draw.choice(WHOLES), "i")]
    if stores.is_single():
        return [script.damage("l", slot, 0, draw.choice(FLOATS))]
    if stores.config.kind == "e":
        count, zeros = stores.rows["f"][slot][:2]
        return [script.damage("f", slot, 0, most), script.damage("f", slot, 1, most - (count - zeros))]
    place = slot * stores.width()
    others = stores.rows["t"][slot][0] - stores.counts["p"][place]
    return [script.damage("t", slot, 0, most), script.damage("p", place, 0, most - others)]


def batch_into(draw, held):
    """A batch into a set that is held or by a number that a place holds: it may meet a count that is nearly full."""
    stores = held.map
    values = [script.write_bits(FLOATS[-1]) if stores.number() == "f" else "5"] * draw.randint(1, 7)
    births = [place for place, birth in enumerate(held.handles) if birth]
    if births and draw.random() < 0.4:
        return script.RecordAllBound(draw.choice(births), tuple(values))
    return script.RecordAll(tuple(values), stores.set_at(draw.randint(0, min(stores.used, 63))))


def full_words(k, held, most):
    words = held.out_words[machine.PLACES + k]
    if words[0] not in (0, 2):
        return []
    return [script.damage("w", k, 1, most), script.damage("w", k, 2, most - (words[1] - words[2]))]


def make(name, options=generate.Options()):
    """Damage is mostly shown at once, and the map after a good part of all lines. A model runs along, so that damage may agree."""
    draw, held, lines = random.Random(name), machine.Machine(), []
    wholes = any(kind[1] == "i" for kind in options.kinds)
    for line in generate.make(name, options):
        added = [line]
        held.line(0, line)
        if draw.random() < 0.05:
            filled = held.config and draw.random() < 0.3
            cells = full(draw, held, options.batches) if filled else [some_damage(draw, held.map)]
            cells += [batch_into(draw, held)] if filled and options.batches else []
            added += map(script.write_line, cells)
        if wholes and line[0] in "jk" and draw.random() < 0.5:
            added += map(script.write_line, kept_damage(draw, held))
        for more in added[1:]:
            held.line(0, more)
        if draw.random() < 0.1:
            added.append("s")
        lines += added
    return lines


def differs(command, lines):
    return answered(command, {"one": lines})["one"] != machine.answers(lines)


def main():
    names, options, given = generate.read_arguments(__doc__.splitlines()[0], "command")
    scripts = {name: make(name, options) for name in names}
    ours = answered(given.command, scripts)
    said = {name: machine.answers(lines) for name, lines in scripts.items()}
    wrong = [name for name in scripts if ours.get(name) != said[name]]
    for name in wrong[:3]:
        lines = smallest(scripts[name], lambda lines: differs(given.command, lines))
        print(f"DIFFERS {name}, smallest script:", *lines, "  the program:", *answered(given.command, {"one": lines})["one"], sep="\n    ")
        print("  the model:", *machine.answers(lines), sep="\n    ")
    numbers = sorted({int(a.split()[2]) for lines in said.values() for a in lines if a.startswith("!")})
    print(f"{given.count} scripts, {sum(map(len, scripts.values()))} lines, {len(wrong)} differ; refusals met: {numbers}")
    raise SystemExit(1 if wrong else 0)


if __name__ == "__main__":
    main()
