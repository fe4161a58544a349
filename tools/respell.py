#!/usr/bin/env python3
"""Respells the definitions of specs/ and the lemmas of proofs/ of all crates: words in snake case, types in upper camel case.

Run once, at the top of a checkout, after the kit's own script. In .antt files it renames everywhere but in strings; in .rt files
only in ghost items and clauses, and in comments; in docs/ and README.md only between backquotes. Names that the library has too,
and laws that are named by the operations that they speak of, keep their
dashes. `--list` prints old and new names, and changes nothing.
"""

import os
import re
import sys

NAME = r"[^\s(){}\[\];,.λ→∷|@⌜⌝\"`:¬×∙]+"
TOKEN = re.compile(NAME)
HEAD = re.compile(r"(?:(?:abbrev|unfoldable|pub)\s+)*(record |data )?(" + NAME + r")\s*(?:[({]|:\s|:$)")
# laws of the operations, as the library names its own: the operation, and what it meets
LAWS = re.compile(r"(add|mul|neg|inv)-[a-z]+$")
# a word of the library, which the kit's script left in two spellings
LEFT = {"bit-xor": "bit_xor", "bitXor": "bit_xor"}
# lemmas that begin with a variable
FACTS = ("A-some", "B-some", "M-is")
# goals, whose names Rattle makes
MADE = re.compile(r"(returns|loop|invariant|decreases|overflow|bounds|nonzero)-")


def files(ending):
    for folder, dirs, names in os.walk("crates"):
        dirs[:] = sorted(d for d in dirs if d != "out")
        for n in sorted(names):
            if n.endswith(ending):
                yield os.path.join(folder, n)


def read(path):
    with open(path, encoding="utf-8") as f:
        return f.read()


def snake(name):
    return re.sub(r"(?<=[a-z0-9'])([A-Z])", lambda m: "_" + m[1].lower(), name)


def camel(name):
    return "".join(part[:1].upper() + part[1:] for part in name.split("-"))


def found():
    """The names that the crates define, and those that they take from the library."""
    own, library = set(), set()
    for path in files(".antt"):
        for line in read(path).split("\n"):
            s = line.strip()
            if s.startswith(("--", "use ", "let ", "unfolding ")) or re.search(r":\s*(goal|need|rules|given)\b", s):
                continue
            m = HEAD.match(s)
            if m and (m[1] or re.match(r"(?:(?:abbrev|unfoldable|pub)\s+)*" + re.escape(m[2]) + r"\s*:", s)):
                own.add(m[2])
    for path in list(files(".antt")) + list(files(".rt")):
        for m in re.finditer(r"^(?:ghost )?(?:pub )?use Rattle\.std\.[^{;\n]*\.\{([^}]*)\}", read(path), re.M):
            for part in m[1].split(","):
                library.add(part.split(" as ")[0].strip())
    return own, library


def renamed():
    own, library = found()
    new = {}
    for name in own:
        if name in library or LAWS.match(name) or MADE.match(name):
            continue
        if name[0].isupper():
            to = camel(name) if "-" in name and name not in FACTS else name
        else:
            to = snake(name)
            to = to.replace("-", "_")
        if to != name:
            new[name] = to
    # a lemma that would have its function's name
    words = {to for name, to in new.items() if "-" not in name} | own.difference(new)
    for name, to in new.items():
        if "-" in name and to in words:
            new[name] = to + "_lem"
    return new, own, library


def tokens(text, new):
    return TOKEN.sub(lambda m: new.get(m[0], m[0]), text)


def antt(text, new):
    words = {k: v for k, v in new.items() if "-" not in k}
    out = []
    for line in text.split("\n"):
        i = line.find("--")
        if i >= 0 and (i == 0 or line[i - 1] == " ") and (i + 2 == len(line) or line[i + 2] == " "):
            out.append(tokens(line[:i], new) + tokens(line[i:], words))
        else:
            out.append(tokens(line, new))
    return "\n".join(out)


def rt(text, new):
    words = {k: v for k, v in new.items() if "-" not in k}
    out, deep = [], 0
    for line in text.split("\n"):
        s = line.strip()
        if s.startswith(("//", "/*")):
            out.append(tokens(line, words))
            continue
        if deep > 0 or s.startswith(("ghost ", "requires ", "requires*", "ensures ", "ensures*")):
            deep = max(0, deep + line.count("{") - line.count("}"))
            out.append(tokens(line, new))
        else:
            out.append(line)
    return "\n".join(out)


def page(text, new):
    return re.sub(r"`[^`\n]+`", lambda m: tokens(m[0], new), text)


def main():
    new, own, library = renamed()
    new |= LEFT
    if "--list" in sys.argv:
        for old in sorted(new):
            print(old, new[old])
        return
    taken = set(own) - set(new)
    for old, to in sorted(new.items()):
        if old in LEFT:
            continue
        if to in taken or to in library or sum(v == to for v in new.values()) > 1:
            print("look:", old, "is now", to, "which stands elsewhere too")
    pages = [os.path.join(d, n) for d, _, ns in os.walk("docs") for n in ns if n.endswith(".md")] + ["README.md"]
    for paths, turn in ((files(".antt"), antt), (files(".rt"), rt), (pages, page)):
        for path in paths:
            before = read(path)
            after = turn(before, new)
            if after != before:
                with open(path, "w", encoding="utf-8") as f:
                    f.write(after)


main()
