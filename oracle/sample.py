"""The stored scripts and answers.

    sample.py make              writes them anew: crates/replay/{stdin,stdout}, the scripts of cases/ and random ones with damage;
                                sample/{scripts,answers}.txt, random scripts without damage; sample/rust.txt, what the Rust answers to all
                                that have no damage; sample/beyond_rust.txt, its answers to sample/beyond.txt, on which it is meant to differ,
                                by the build without overflow checks
    sample.py check             needs no Rust: the reference and the model against the stored answers, and these against the Rust's
    sample.py check COMMAND     runs a command on all stored scripts and compares what it prints with the stored answers
    sample.py gauge COMMAND     likewise on the input of the gauge program, crates/gauge/stdin (tools/make_gauge_vectors.py)

The answers are the reference's, over lists of values; to scripts that damage or show cells the model's of the stores, which must answer the
others as the reference does. A script on which the Rust differs has values beside a bound; the extremes that it shows at count 0 are expected.
"""

import shlex
import subprocess
import sys
from pathlib import Path

import cases
import damage
import generate
import machine
import reference
from compare import AGREED, BESIDE, Comparer
from reference import Rules
from runs import answered
from rust import UNCHECKED, asked, replay, told
from script import join_scripts, split_scripts

HERE = Path(__file__).resolve().parent / "sample"
CRATES = HERE.parent.parent / "crates"
STORED = {CRATES / "replay/stdin": CRATES / "replay/stdout", HERE / "scripts.txt": HERE / "answers.txt"}
SINGLES = generate.Options(kinds=("sf", "lf"))
WHOLES = generate.Options(kinds=("ei", "xi"))
BATCHES = generate.Options(kinds=("ef", "xf", "sf", "lf", "ei", "xi"), batches=True)
RANDOM = {"sample": (250, generate.Options()), "singles": (50, SINGLES), "wholes": (50, WHOLES), "batches": (60, BATCHES)}
DAMAGED = {"damage": (25, generate.Options()), "damaged_singles": (25, SINGLES), "damaged_wholes": (20, WHOLES), "damaged_batches": (30, BATCHES)}


def stored(path):
    return split_scripts(path.read_bytes().decode())


def store(path, scripts):
    path.write_bytes(join_scripts(scripts).encode())


def all_stored():
    return {name: lines for path in STORED for name, lines in stored(path).items()}


def all_answers():
    return {name: lines for path in STORED.values() for name, lines in stored(path).items()}


def undamaged(scripts):
    return {name: lines for name, lines in scripts.items() if not cases.is_damaged(lines)}


def expected(lines):
    return (machine if cases.is_damaged(lines) else reference).answers(lines)


def drawn(maker, wanted):
    """Random scripts: of each name so many with its options."""
    return {f"{name}.{i}": maker.make(f"{name}.{i}", options) for name, (count, options) in wanted.items() for i in range(count)}


def make():
    random, damaged = drawn(generate, RANDOM), drawn(damage, DAMAGED)
    for (inputs, outputs), scripts in zip(STORED.items(), (cases.scripts() | damaged, random)):
        store(inputs, scripts)
        store(outputs, {name: expected(lines) for name, lines in scripts.items()})
    plain = undamaged(all_stored())
    verdicts = dict(Comparer().compare(plain))
    explained = *AGREED, BESIDE
    assert set(verdicts.values()) <= set(explained), [name for name in verdicts if verdicts[name] not in explained]
    store(HERE / "rust.txt", told({name: asked(lines, Rules()) for name, lines in plain.items()}))
    store(HERE / "beyond_rust.txt", replay(stored(HERE / "beyond.txt"), UNCHECKED))


def compare_all(what, expected, given):
    wrong = [name for name in expected if given.get(name) != expected[name]]
    print(f"{what}: {len(expected) - len(wrong)} scripts the same, {len(wrong)} not{': ' if wrong else ''}{', '.join(wrong)}")
    return wrong


def check_answers():
    scripts, said = all_stored(), all_answers()
    plain = undamaged(scripts)
    wrong = compare_all("the reference", {name: said[name] for name in plain}, {name: reference.answers(lines) for name, lines in plain.items()})
    wrong += compare_all("the model of the stores", said, {name: machine.answers(lines) for name, lines in scripts.items()})
    questions = {name: asked(lines, Rules()).expected for name, lines in plain.items()}
    differing = compare_all("the Rust's stored answers (not the same: judged by the definition)", questions, stored(HERE / "rust.txt"))
    comparer = Comparer()
    unexplained = [name for name in differing if not any(comparer.near_bounds(plain[name]))]
    return not wrong and not unexplained


def check_program(command):
    return not compare_all(command, all_answers(), answered(command, all_stored()))


def check_gauge(command):
    gauge = CRATES / "gauge"
    given = subprocess.run(shlex.split(command), stdin=(gauge / "stdin").open("rb"), stdout=subprocess.PIPE).stdout
    right = (gauge / "stdout").read_bytes()
    print(f"{command}: {'the same' if given == right else 'NOT the same'}, {len(right.splitlines())} lines")
    return given == right


def main():
    match sys.argv[1:]:
        case ["make"]:
            make()
            holds = check_answers()
        case ["check"]:
            holds = check_answers()
        case ["check", command]:
            holds = check_program(command)
        case ["gauge", command]:
            holds = check_gauge(command)
        case _:
            raise SystemExit(__doc__)
    raise SystemExit(0 if holds else 1)


if __name__ == "__main__":
    main()
