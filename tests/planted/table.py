#!/usr/bin/env python3
"""Writes docs/ASSURANCE.md from tests/planted/bugs.tsv, which has a line for each planted bug: its crate, its name, whether the gate tries it
(must-fail) or tests/planted/run does (planted), what it does, whether the check refused it before the contracts were made stronger
(refused; proved; unsaid, where no clause spoke of it; "with others", where it was first tried together with others), and by what it is refused.

Usage: table.py [--check]     --check compares, and writes nothing
       table.py --log LOG..   takes the refusals of logs of `rt must-fail` or `rt ci` into bugs.tsv first
"""
import os
import re
import sys

HERE = os.path.dirname(os.path.abspath(__file__))
TOP = os.path.join(HERE, "../..")
BUGS = os.path.join(HERE, "bugs.tsv")
PAGE = os.path.join(TOP, "docs/ASSURANCE.md")
REFUSED = re.compile(r"^rt: must-fail ([a-z]+)/([A-Za-z0-9_]+)\.edit: refused, as it must be: (.*)$")


class Bug:
    def __init__(self, line):
        self.crate, self.name, self.place, self.what, self.before, self.refused_by = line.rstrip("\n").split("\t")

    def line(self):
        return "\t".join((self.crate, self.name, self.place, self.what, self.before, self.refused_by)) + "\n"

    def edit(self):
        folder = "crates/%s/must-fail" % self.crate if self.place == "must-fail" else "tests/planted/%s" % self.crate
        return os.path.join(TOP, folder, self.name + ".edit")


def read_bugs():
    with open(BUGS, encoding="utf-8") as file:
        return [Bug(line) for line in file]


def take_logs(bugs, logs):
    refusals = {}
    for log in logs:
        with open(log, encoding="utf-8", errors="replace") as file:
            for line in file:
                found = REFUSED.match(line)
                if found:
                    refusals[found[1], found[2]] = found[3]
    for bug in bugs:
        if (bug.crate, bug.name) in refusals:
            bug.refused_by = refused_by(bug.crate, refusals[bug.crate, bug.name])
    with open(BUGS, "w", encoding="utf-8") as file:
        file.writelines(bug.line() for bug in bugs)


def function_at(crate, path, number):
    """The function that stands at a line of a source file, or begins right behind it, as behind its attribute."""
    with open(os.path.join(TOP, "crates", crate, path), encoding="utf-8") as file:
        lines = file.readlines()
    before, behind = lines[number - 1 :: -1], lines[number:]
    is_attribute = lines[number - 1].lstrip().startswith("#[")
    for line in behind + before if is_attribute else before + behind:
        found = re.search(r"\bfn (\w+)", line)
        if found:
            return found[1]
    return ""


def refused_by(crate, refusal):
    """The function and the goal of it that is not proved, from the first line of a refusal."""
    place = re.match(r"(?:note: |error: )?(?:\./)?([\w/.+-]+\.(?:rt|antt)):(\d+)", refusal)
    goals = re.findall(r"\(`([\w+-]+)", refusal) or re.findall(r"`([\w+-]+)`", refusal)
    goal = goals[0] if goals else ""
    if not place:
        return refusal[:80]
    path = place[1]
    parts = path.split("/")
    if not path.endswith(".antt"):
        name = function_at(crate, path, int(place[2]))
    elif parts[-1] in ("Answers.antt", "Invariants.antt"):
        name = parts[-2]
    else:
        return "lemma `%s` of `%s`" % (goal, path)
    return "`%s`: %s" % (name, clause(goal, refusal))


def clause(goal, refusal):
    """What is not proved, by the words of the contract."""
    named = re.search(r"clause-(\w+)", goal)
    if goal.startswith("returns"):
        return "ensures `%s`" % named[1] if named else "ensures"
    if goal.startswith("faulty-"):
        return "ensures `%s`" % goal[len("faulty-"):]
    if "requires" in goal:
        return "requires `%s` of a call" % named[1] if named else "requires of a call"
    if goal.startswith(("invariant_of", "type_inv")):
        return "the invariant of a type"
    if goal.startswith("loop") or "invariant of the loop" in refusal:
        return "the invariant of a loop"
    if goal.startswith("slice_bounds"):
        return "the bounds of a slice"
    return "`%s`" % goal if goal else "a fact that the proof needs"


def in_gate(bug):
    return "gate" if bug.place == "must-fail" else "planted"


def table(bugs):
    rows = ["| Bug | What it does | Tried by | Refused by | Before |", "|---|---|---|---|---|"]
    for bug in sorted(bugs, key=lambda bug: (bug.place, bug.name)):
        rows.append("| `%s` | %s | %s | %s | %s |" % (bug.name, bug.what, in_gate(bug), bug.refused_by, bug.before))
    return "\n".join(rows) + "\n"


def summary(crates, bugs):
    rows = ["| Crate | In the gate | In tests/planted | Still proved before |", "|---|---|---|---|"]
    total = [0, 0, 0]
    for crate in crates:
        own = [bug for bug in bugs if bug.crate == crate]
        gate = sum(bug.place == "must-fail" for bug in own)
        counts = (gate, len(own) - gate, sum(bug.before == "proved" for bug in own))
        total = [a + b for a, b in zip(total, counts)]
        rows.append("| `%s` | %d | %d | %d |" % ((crate,) + counts))
    rows.append("| all | %d | %d | %d |" % tuple(total))
    return "\n".join(rows) + "\n"


def page(bugs):
    with open(os.path.join(TOP, "crates.txt"), encoding="utf-8") as file:
        order = [re.match(r"\w+", line)[0] for line in file if re.match(r"\w", line)]
    crates = [crate for crate in order if any(bug.crate == crate for bug in bugs)]
    with open(os.path.join(HERE, "assurance_head.md"), encoding="utf-8") as file:
        parts = [file.read().replace("SUMMARY\n", summary(crates, bugs))]
    for crate in crates:
        parts.append("\n## %s\n\n%s" % (crate, table([bug for bug in bugs if bug.crate == crate])))
    return "".join(parts)


def check_files(bugs):
    """Each line has its edit, and each edit its line."""
    missing = [bug.edit() for bug in bugs if not os.path.exists(bug.edit())]
    known = {os.path.normpath(bug.edit()) for bug in bugs}
    crates = os.path.join(TOP, "crates")
    folders = [os.path.join(crates, name, "must-fail") for name in os.listdir(crates)]
    folders += [os.path.join(HERE, name) for name in os.listdir(HERE)]
    for folder in filter(os.path.isdir, folders):
        edits = [os.path.normpath(os.path.join(folder, name)) for name in os.listdir(folder) if name.endswith(".edit")]
        missing += ["no line for " + edit for edit in edits if edit not in known]
    return missing


def main():
    bugs = read_bugs()
    if sys.argv[1:2] == ["--log"]:
        take_logs(bugs, sys.argv[2:])
    missing = check_files(bugs)
    if missing:
        print("\n".join(missing), file=sys.stderr)
        return 1
    text = page(bugs)
    if sys.argv[1:2] == ["--check"]:
        with open(PAGE, encoding="utf-8") as file:
            if file.read() != text:
                print("docs/ASSURANCE.md is not what tests/planted/table.py writes", file=sys.stderr)
                return 1
        return 0
    with open(PAGE, "w", encoding="utf-8") as file:
        file.write(text)
    return 0


if __name__ == "__main__":
    sys.exit(main())
