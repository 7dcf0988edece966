#!/usr/bin/env python3
"""Brings this repository's own definitions and lemmas to snake case: channelOf is channel_of, rest-is is rest_is.

usage: tools/respell.py [--list]      at the top of the repository, once; --list only lists names that fall together

Types, records, modules and facts keep their upper camel case. Names of .rt items, strings, inputs and
outputs are not touched, nor are names that the check makes (returns-in_ok, loop-i-preserved, ..).
"""
import collections
import glob
import re
import sys

TOKEN = re.compile(r"[^\s(){}\[\];,.:=λ→×\\\"]+")
CAMEL = re.compile(r"^[a-z][a-z0-9]*(?:[A-Z][A-Za-z0-9]*)+(?:-[a-z0-9-]+)?'*$")
DECLARED = re.compile(r"^\s*(?:(?:pub|abbrev|unfoldable|instance|private)\s+)*([a-z][^\s(){}\[\];,.:=]*)\s*:(?:\s|$)")
# facts: records and definitions of types, whose names lose their dashes and stay in upper camel case
FACT = re.compile(r"^\s*(?:(?:pub|abbrev|unfoldable|record)\s+)+([A-Z][A-Za-z]*(?:-[a-z]+)+)\s")
# what the check names after the code: goals, invariants, steps of a walk
MADE = re.compile(r"^(?:returns|loop|invariant|decreases|measure|inv|in|if|else|then|match|index|let)-|-requires$|-ensures$")
# names that would fall together with another one in a file that uses both, and what they are called
APART = {
    "keep-alive": "keep_alive_read",
    "keep-alive-complete": "keep_alive_complete_spelt",
    "kill-failure": "kill_failure_spelt",
    "reset-complete": "reset_complete_spelt",
    "may-cells": "may_cells_lem",
    "same-identity": "same_identity_lem",
    "entry-fits": "entry_fits_lem",
    "answer-fits": "answer_fits_lem",
    "request-fits": "request_fits_lem",
}


def antt_files():
    return sorted(glob.glob("crates/*/specs/**/*.antt", recursive=True) + glob.glob("crates/*/proofs/**/*.antt", recursive=True))


def source_files():
    return sorted(glob.glob("crates/*/src/**/*.rt", recursive=True))


def snake(name):
    if name in APART:
        return APART[name]
    name = re.sub(r"(?<=[a-z0-9])([A-Z])", lambda m: "_" + m.group(1).lower(), name)
    return name.replace("-", "_")


def made_in(text):
    """The names that a file of answers gives because the check asks for them."""
    return set(re.findall(r"\b(?:goal|rules|need|given)\.([^\s(){}\[\];,.:]+)", text))


def gather():
    table, declared = {}, collections.defaultdict(set)
    for path in antt_files():
        text = open(path, encoding="utf-8").read()
        made = made_in(text)
        for line in text.split("\n"):
            f = FACT.match(line)
            if f:
                table[f.group(1)] = re.sub(r"-([a-z])", lambda x: x.group(1).upper(), f.group(1))
            m = DECLARED.match(line)
            if m and "-" in m.group(1) and m.group(1) not in made and not MADE.search(m.group(1)):
                declared[m.group(1)].add(path)
        for token in TOKEN.findall(text):
            if CAMEL.match(token) and not MADE.search(token):
                table[token] = snake(token)
    for name in declared:
        table[name] = snake(name)
    for path in source_files():
        for alias in re.findall(r"\bas ([a-z][a-z0-9]*[A-Z][A-Za-z0-9]*)\b", open(path, encoding="utf-8").read()):
            table[alias] = snake(alias)
    return table


def foreign_in(text):
    """The names that a file takes from the library."""
    out = set()
    for path, names in re.findall(r"\buse\s+((?:Rattle\.(?:std|core)|lib|native|logic|mathlib)[^\s{]*)\.\{([^}]*)\}", text):
        for n in names.split(","):
            n = n.strip()
            if n:
                out.add(n.split(" as ")[-1].strip())
                out.add(n.split(" as ")[0].strip())
    return out


def respelled(text, table, foreign):
    def turn(m):
        t = m.group(0)
        return table[t] if t in table and t not in foreign else t
    out = []
    for line in text.split("\n"):
        code, dash, comment = line, "", ""
        m = re.search(r"(^|\s)--(\s|$)", line)
        if m:
            code, dash, comment = line[: m.start()], line[m.start():], ""
        out.append(TOKEN.sub(turn, code) + dash)
    return "\n".join(out)


def respelled_source(text, table):
    """In a .rt file only camel-case words of clauses and ghost lines are names of definitions."""
    def turn(m):
        return table.get(m.group(0), m.group(0))
    out = []
    for line in text.split("\n"):
        if line.lstrip().startswith("//"):
            out.append(line)
            continue
        parts = re.split(r'("(?:[^"\\]|\\.)*")', line)
        parts[::2] = [re.sub(r"(?<![A-Za-z0-9_])[A-Za-z][A-Za-z0-9_]*(?:-[A-Za-z0-9_-]+)?(?![A-Za-z0-9_])", turn, p) for p in parts[::2]]
        out.append("".join(parts))
    return "\n".join(out)


def together(table):
    for path in antt_files() + source_files():
        text = open(path, encoding="utf-8").read()
        foreign = foreign_in(text)
        tokens = set(TOKEN.findall(text))
        by_new = collections.defaultdict(set)
        for t in tokens:
            new = table.get(t, t) if t not in foreign else t
            by_new[new].add(t)
        for new, olds in sorted(by_new.items()):
            if len(olds) > 1:
                yield path, new, olds


def main():
    table = gather()
    if "--list" in sys.argv:
        for path, new, olds in together(table):
            print(path, new, "<-", " ".join(sorted(olds)))
        return
    for path in antt_files():
        text = open(path, encoding="utf-8").read()
        new = respelled(text, table, foreign_in(text))
        if new != text:
            open(path, "w", encoding="utf-8").write(new)
    for path in source_files():
        text = open(path, encoding="utf-8").read()
        new = respelled_source(text, table)
        if new != text:
            open(path, "w", encoding="utf-8").write(new)


main()
