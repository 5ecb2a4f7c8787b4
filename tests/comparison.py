"""Runs scripts through the oracle and through the port, and says where their lines differ. Called by
tests/compare, which builds both."""

import argparse
import itertools
import os
import pathlib
import subprocess
import sys

from generator import MODES, script
from generator.text import from_text
from interoperation import half, once_and_in_order, returns

ROOT = pathlib.Path(__file__).resolve().parent.parent
ORACLE = [str(ROOT / "target/oracle/release/oracle")]
KEPT = ROOT / "target/compare"
DIFFERENCES = ROOT / "tests/differences"
MARKED_CASES = ROOT / "tests/marked-cases.hex"
PARTS = ["marked-cases", *MODES, "differences"]


def port():
    """The port's program, or the one that is set in its place."""
    given = os.environ.get("REPLAY")
    return [given] if given else [str(ROOT / "tools/run-program"), "replay"]


def lines(program, said):
    ran = subprocess.run(program, input=said, stdout=subprocess.PIPE)
    ended = [] if ran.returncode == 0 else [f"(ended with status {ran.returncode})"]
    return ran.stdout.decode("latin-1").splitlines() + ended


def first_difference(ours, theirs):
    """The number, from 1, of the first line that differs, and both lines; None where all agree."""
    pairs = itertools.zip_longest(ours, theirs, fillvalue="(no line)")
    return next(((n, *pair) for n, pair in enumerate(pairs, 1) if pair[0] != pair[1]), None)


def say_difference(what, said, difference):
    KEPT.mkdir(parents=True, exist_ok=True)
    kept = KEPT / f"{what.replace(' ', '-')}.script"
    kept.write_bytes(said)
    number, ours, theirs = difference
    print(f"{what}: line {number} differs; the script is {kept.relative_to(ROOT)}")
    print(f"  laminar: {theirs}\n  port:    {ours}", flush=True)


def compare_scripts(part, scripts, port):
    """Whether all lines of some scripts, each with a name, agree; the first that doesn't is printed."""
    compared = count = 0
    for name, said in scripts:
        theirs = lines(ORACLE, said)
        difference = first_difference(lines(port, said), theirs)
        if difference:
            say_difference(name, said, difference)
            return False
        compared, count = compared + len(theirs), count + 1
    print(f"{part}: {compared} lines agree, {count} scripts", flush=True)
    return True


def compare_sessions(seeds, port):
    """Whether the port's end and laminar's understand each other, either way about, and two ends of the
    port each other; and every ordered item comes out once and in order."""
    compared = items = past = 0
    for seed in seeds:
        said = script("session", seed)
        both_laminar = lines(ORACLE, said)
        arrived = once_and_in_order(said, both_laminar)
        if arrived is None:
            print(f"session {seed}: laminar's own ends lose, repeat or disorder an item")
            return False
        whole = "at both ends", said, both_laminar
        halves = [(f"at end {end}", *half(said, both_laminar, end)) for end in (0, 1)]
        for where, given, theirs in [whole, *halves]:
            difference = first_difference(lines(port, given), theirs)
            if difference:
                say_difference(f"session {seed} port {where}", given, difference)
                return False
            compared += len(theirs)
        items, past = items + arrived, past + returns(both_laminar)
    print(f"session: {compared} lines agree, {len(seeds)} sessions with the port at either end and at both, "
          f"{items} items once and in order; {past} sessions pass item 65,535", flush=True)
    return True


def as_recorded(program, said, answers):
    """Whether a program answers a script as the file has it."""
    difference = first_difference(lines(program, said), answers.read_text().splitlines())
    if difference:
        number, now, before = difference
        name = answers.relative_to(ROOT)
        print(f"{name}: line {number} differs\n  recorded: {before}\n  now:      {now}", flush=True)
    return difference is None


def compare_differences(port):
    """Whether both sides answer outside the domain as it is recorded."""
    held = [as_recorded([*ORACLE, "outside"], b"", DIFFERENCES / "outside.rust")]
    for file in sorted(DIFFERENCES.glob("*.hex")):
        said = from_text(file.read_text())
        held.append(as_recorded(ORACLE, said, file.with_suffix(".rust")))
        if file.with_suffix(".port").exists():
            held.append(as_recorded(port, said, file.with_suffix(".port")))
    print(f"differences: {held.count(True)} of {len(held)} recorded answers are given", flush=True)
    return all(held)


def compare_part(part, seeds, port):
    if part == "session":
        return compare_sessions(seeds, port)
    if part == "differences":
        return compare_differences(port)
    if part == "marked-cases":
        return compare_scripts(part, [(part, from_text(MARKED_CASES.read_text()))], port)
    return compare_scripts(part, ((f"{part} {seed}", script(part, seed)) for seed in seeds), port)


def main():
    words = argparse.ArgumentParser(prog="tests/compare", description=__doc__)
    words.add_argument("--seeds", type=int, default=24, help="scripts for each mode (24)")
    words.add_argument("--first", type=int, default=0, help="the first seed (0)")
    words.add_argument("parts", nargs="*", metavar="PART", help=f"some of: {', '.join(PARTS)}")
    given = words.parse_args()
    if not set(given.parts) <= set(PARTS):
        words.error(f"the parts are {', '.join(PARTS)}")
    seeds = range(given.first, given.first + given.seeds)
    program = port()
    agree = [compare_part(part, seeds, program) for part in given.parts or PARTS]
    return 0 if all(agree) else 1


if __name__ == "__main__":
    sys.exit(main())
