#!/usr/bin/env python3
"""Measures sessions on the sets of offers of the program `offers`, and FaCT++ beside them.

usage: tools/benchmark.py [RUNS]

Installs Debian's package fact++ where it is not there. A session is measured within one
program: its rules added, and the question asked when nothing is learnt and again. FaCT++ is
run as a program for each offer: the fastest of RUNS runs (10 if not said), less the fastest
of as many runs on no rules at all, which is what starting it takes."""

import os
import re
import subprocess
import sys
import time

import factpp

CRATE = os.path.join(os.path.dirname(os.path.abspath(__file__)), "..", "crates", "offers")
MEASURED = re.compile(
    r"(.*): (\d+) offers, (\d+) solves; (\d+) ns to add, (\d+) ns to ask, (\d+) ns again; "
    r"(\d+) questions a second, (\d+) ns a solve"
)


def printed(argument):
    program = os.path.join(CRATE, "out", "offers")
    run = subprocess.run([program, argument], check=True, capture_output=True, text=True)
    return run.stdout.splitlines()


def listed():
    """The offers of each set: the verdict on each, and the bytes of its rules."""
    sets = {}
    for line in printed("list"):
        name, offer = line.split("\t")
        verdict, *rules = offer.split()
        sets.setdefault(name, []).append((verdict, [bytes.fromhex(rule) for rule in rules]))
    return sets


def timed(reasoner, rules):
    """The seconds that FaCT++ takes for the rules as a program, and its answer."""
    reasoner.prepare(rules)
    start = time.perf_counter()
    met = reasoner.ask()
    return time.perf_counter() - start, met


def asked(reasoner, verdict, rules, runs):
    """The least seconds with the rules, less the least with none, in turn, and those with none."""
    least = starting = float("inf")
    for _ in range(runs):
        seconds, met = timed(reasoner, rules)
        if verdict != "given-up" and met != (verdict == "open"):
            raise RuntimeError("the verdicts differ: " + " ".join(rule.hex() for rule in rules))
        least = min(least, seconds)
        starting = min(starting, timed(reasoner, [])[0])
    return least - starting, starting


def measured():
    """What the program measures, set by set: of three runs the one with the fastest question."""
    fastest = {}
    for _ in range(3):
        for line in printed("time"):
            name, *numbers = MEASURED.fullmatch(line).groups()
            numbers = [int(number) for number in numbers]
            if name not in fastest or numbers[3] < fastest[name][3]:
                fastest[name] = numbers
    return fastest


def main():
    runs = int(sys.argv[1]) if len(sys.argv) > 1 else 10
    factpp.install()
    subprocess.run(["rt", "run"], cwd=CRATE, check=True, capture_output=True)
    sets = listed()
    print("| Set | Offers: open, closed, 22 | Adding, µs | First question, µs | Again, µs "
          "| Questions a second | Solves for an offer | A solve, ns | FaCT++, µs | FaCT++ to session |")
    print("|---|---|---|---|---|---|---|---|---|---|")
    least_start = float("inf")
    with factpp.Reasoner() as reasoner:
        for name, (offers, solves, adding, first, further, questions, solve) in measured().items():
            verdicts = [verdict for verdict, _ in sets[name]]
            counts = ", ".join(str(verdicts.count(v)) for v in ("open", "closed", "given-up"))
            spent = 0
            for verdict, rules in sets[name]:
                seconds, starting = asked(reasoner, verdict, rules, runs)
                spent += seconds
                least_start = min(least_start, starting)
            other = max(0, spent * 1e6 / offers)
            print(f"| {name} | {counts} | {adding / 1e3:.1f} | {first / 1e3:.2f} | {further / 1e3:.2f} "
                  f"| {questions} | {solves / offers:.1f} | {solve} | {other:.0f} "
                  f"| {other * 1e3 / (adding + first):.2g} |")
    print(f"starting FaCT++: {least_start * 1e6:.0f} µs, which is not counted")


if __name__ == "__main__":
    main()
