#!/usr/bin/env python3
"""Calls std's AllByRecursion by its own name, since the gate takes no alias `All` for it. usage: tools/all_by_recursion.py, at the top, once."""
import glob
import re

for path in sorted(glob.glob("crates/*/s*/**/*.*t*", recursive=True) + glob.glob("crates/*/proofs/**/*.antt", recursive=True)):
    if not path.endswith((".rt", ".antt")):
        continue
    text = open(path, encoding="utf-8").read()
    if "AllByRecursion as All" not in text:
        continue
    new = text.replace("AllByRecursion as All", "AllByRecursion")
    new = re.sub(r"(?<![\w.:'\-◌])All(?![\w'\-:])", "AllByRecursion", new)
    open(path, "w", encoding="utf-8").write(new)
