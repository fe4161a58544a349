#!/usr/bin/env python3
"""Respells, in the proof files of functions, the names that Rattle makes: a name of the source keeps its underscores in them,
and so do Rattle's own words. Run once, at the top of a checkout, after tools/respell.py."""

import glob
import os
import re

NAME = r"[^\s(){}\[\];,.λ→∷|@⌜⌝\"`:¬×∙]+"
TOKEN = re.compile(NAME)
WORDS = {"overflow_add", "overflow_sub", "overflow_mul", "overflow_shl", "overflow_shr", "overflow_cast", "overflow_step",
    "nonzero_div", "nonzero_rem", "in_ok", "in_err", "in_default", "slice_bounds", "offset_bounds", "type_inv"}


def read(path):
    with open(path, encoding="utf-8") as f:
        return f.read()


def turned(token, words, longest):
    parts, out, i = token.split("-"), [], 0
    while i < len(parts):
        for n in range(min(longest, len(parts) - i), 1, -1):
            joined = "_".join(parts[i:i + n])
            if joined in words:
                out.append(joined)
                i += n
                break
        else:
            out.append(parts[i])
            i += 1
    return "-".join(out)


for crate in sorted(glob.glob("crates/*")):
    words = set(WORDS)
    for path in glob.glob(crate + "/src/*.rt"):
        words |= {w for w in re.findall(r"[a-z][A-Za-z0-9]*(?:_[A-Za-z0-9]+)+", read(path))}
    longest = max(w.count("_") + 1 for w in words)
    for folder, _, names in os.walk(crate + "/proofs"):
        for n in names:
            if n not in ("Answers.antt", "Invariants.antt"):
                continue
            path = os.path.join(folder, n)
            text = read(path)
            library = set()
            for m in re.finditer(r"^use Rattle\.std\.[^{;\n]*\.\{([^}]*)\}", text, re.M):
                library |= {p.split(" as ")[0].strip() for p in m[1].split(",")}
            lines = [
                line if line.startswith(("use ", "--")) and not re.search(r"(Goals|Given)\.\{", line)
                else TOKEN.sub(lambda m: m[0] if m[0] in library else turned(m[0], words, longest), line)
                for line in text.split("\n")
            ]
            after = "\n".join(lines)
            if after != text:
                with open(path, "w", encoding="utf-8") as f:
                    f.write(after)
