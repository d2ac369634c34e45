#!/usr/bin/env python3
"""Compares verdicts on random rules with those of FaCT++.

usage: tools/referee.py [SETS [SEED]]

Installs Debian's package fact++ where it is not there, makes the sets of rules with the
program `cross_check`, and asks FaCT++ about each."""

import os
import subprocess
import sys

import factpp

CRATE = os.path.join(os.path.dirname(os.path.abspath(__file__)), "..", "crates", "cross_check")


def listed(arguments):
    """Each set that the program prints: its verdict and the bytes of its rules."""
    subprocess.run(["rt", "run"], cwd=CRATE, check=True, capture_output=True)
    program = os.path.join(CRATE, "out", "cross_check")
    printed = subprocess.run([program, "list", *arguments], check=True, capture_output=True, text=True)
    for line in printed.stdout.splitlines():
        verdict, *rules = line.split()
        yield verdict, [bytes.fromhex(rule) for rule in rules]


def main():
    factpp.install()
    counts = {"open": 0, "closed": 0, "given-up": 0}
    rules = differences = 0
    with factpp.Reasoner() as reasoner:
        for verdict, asked in listed(sys.argv[1:] or ["1000"]):
            counts[verdict] += 1
            rules += len(asked)
            reasoner.prepare(asked)
            if verdict != "given-up" and reasoner.ask() != (verdict == "open"):
                differences += 1
                print("differs:", verdict, *(rule.hex() for rule in asked))
    print(f"{sum(counts.values())} sets, {rules} rules")
    print(f"{counts['open']} open, {counts['closed']} closed, {counts['given-up']} given up with 22")
    print(f"differences from FaCT++: {differences}")
    return 1 if differences else 0


if __name__ == "__main__":
    sys.exit(main())
