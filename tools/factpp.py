"""Asks FaCT++, a reasoner for description logics, whether rules can be met together.

A rule is given by its bytes, as docs/RULES.md says; modal logic K is the description
logic ALC with one role, here `part`. Each row becomes a concept with a definition."""

import os
import shutil
import subprocess
import tempfile

CONF = """[LeveLogger]
 file = reasoning.log
 allowedLevel = 0

[Tuning]
 testTimeout = 0

[Query]
 TBox = rules.tbox
 Target = asked
"""


def install():
    """Installs Debian's package fact++ where the program is not there."""
    if shutil.which("FaCT++") is None:
        subprocess.run(["apt-get", "update", "-qq"], check=True)
        subprocess.run(["apt-get", "install", "-y", "-qq", "fact++"], check=True)


def rows(data):
    """The rows of a rule's bytes, each as its kind and its body."""
    at = 0
    while at < len(data):
        size = {0: 0, 1: 0, 4: 2, 5: 2}.get(data[at], 1)
        yield data[at], data[at + 1 : at + 1 + size]
        at += 1 + size


def concept(kind, body, name):
    """A row in the language of FaCT++; `name` gives the concept of an earlier row."""
    if kind == 0:
        return "BOTTOM"
    if kind == 1:
        return "TOP"
    if kind == 2:
        return f"c{body[0]}"
    words = ["not", "and", "or", "all part", "some part"][kind - 3]
    return f"({words} {' '.join(name(child) for child in body)})"


def knowledge(rules):
    """The rules, each as bytes, and the concept `asked` of all of them together."""
    lines = ["(defprimrole part)"]
    lines += [f"(defprimconcept c{letter})" for letter in range(15)]
    asked = "TOP"
    for number, rule in enumerate(rules):
        name = lambda row: f"r{number}n{row}"
        last = 0
        for last, (kind, body) in enumerate(rows(rule)):
            lines.append(f"(defconcept {name(last)} {concept(kind, body, name)})")
        asked = f"(and {asked} {name(last)})"
    lines.append(f"(defconcept asked {asked})")
    return "\n".join(lines) + "\n"


class Reasoner:
    """Runs FaCT++ in a folder of its own, where it writes its files."""

    def __enter__(self):
        self.folder = tempfile.mkdtemp()
        with open(os.path.join(self.folder, "rules.conf"), "w") as conf:
            conf.write(CONF)
        return self

    def __exit__(self, *_):
        shutil.rmtree(self.folder)

    def prepare(self, rules):
        with open(os.path.join(self.folder, "rules.tbox"), "w") as tbox:
            tbox.write(knowledge(rules))

    def ask(self):
        """Whether the rules that were prepared can be met together."""
        run = subprocess.run(
            ["FaCT++", "rules.conf"], cwd=self.folder, capture_output=True, text=True
        )
        said = run.stdout + run.stderr
        if "is satisfiable w.r.t." in said:
            return True
        if "is unsatisfiable w.r.t." in said:
            return False
        raise RuntimeError(said)
