#!/usr/bin/env python3
"""Respells, in the clauses of functions, the members that a bound gives: `F.arithmetic`, `R.valid`, `R.meaning`, by the name of the
type parameter. Run once, at the top of a checkout, after tools/respell.py. The traits themselves name their members alone."""

import glob
import re

TRAITS = ("crates/field/src/lib.rt", "crates/rack/src/rack.rt")

for path in sorted(glob.glob("crates/*/src/*.rt")):
    with open(path, encoding="utf-8") as f:
        text = f.read()
    after = text.replace("F.Field.", "F.").replace("R.Rack.", "R.")
    lines = []
    for line in after.split("\n"):
        if line.strip().startswith(("requires", "ensures")) and path not in TRAITS:
            line = re.sub(r"(?<![.\w])arithmetic\b(?! *=)", "F.arithmetic", line)
            line = re.sub(r"(?<![.\w])(valid|meaning)\b(?! *\{)", r"R.\1", line)
        lines.append(line)
    after = "\n".join(lines)
    if after != text:
        with open(path, "w", encoding="utf-8") as f:
            f.write(after)
