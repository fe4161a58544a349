#!/usr/bin/env python3
"""Lists the places of a design pass in the src/ of all crates: `python3 tools/places.py POINT [TREE]`, POINT 1 to 7 or `all`.

1  refusals and kinds that are numbers, options that hold an error, enums with a variant for an error or for nothing, success as a bool
2  functions that are the same but for names, numbers and types
3  loops that count an index by hand: `while` with a counter, `for` over a range whose number is only an index
4  functions that do no more than map the variants of an enum, or the words of a text, to other values or back
5  a requires or a premise that stands in three or more functions, three or more parameters that three or more functions share
6  arrays with a count beside them, parallel arrays, a text with an offset beside it
7  a match each of whose arms calls the same function
"""
import collections
import glob
import os
import re
import sys

FN = re.compile(r'^( *)(?:pub(?:\(crate\))? )?(?:final )?(?:extern "C" )?fn (\w+)')


class Function:
    def __init__(self, path, name, head, clauses, body, owner):
        self.path, self.name, self.head, self.clauses, self.body, self.owner = path, name, head, clauses, body, owner

    def where(self):
        return f"{self.path}: {self.owner + '::' if self.owner else ''}{self.name}"


def functions(tree):
    out = []
    for path in sorted(glob.glob(f'{tree}/crates/*/src/**/*.rt', recursive=True)):
        lines = open(path).read().split('\n')
        owner = ''
        i = 0
        while i < len(lines):
            if (m := re.match(r'^(?:impl|pub trait|trait)\b(.*?)\{?$', lines[i])):
                owner = re.sub(r'<.*?>', '', m.group(1)).strip().split(' for ')[-1].strip()
            if lines[i].startswith('}'):
                owner = ''
            m = FN.match(lines[i])
            if not m:
                i += 1
                continue
            pad = m.group(1)
            j = i
            while not re.search(r'[{;]\s*$', lines[j]) or (re.match(r'\s+(requires|ensures)\b', lines[j]) and not lines[j].endswith(';')):
                j += 1
            if lines[j].rstrip().endswith(';'):
                i = j + 1
                continue
            k = j
            if not lines[j].rstrip().endswith('}'):
                while lines[k] != pad + '}':
                    k += 1
            text = lines[i:j]
            if lines[j].strip() != '{':
                text = text + [lines[j].rstrip()[:-1]]
            head = ' '.join(l.strip() for l in text if not re.match(r'\s+(requires|ensures)\b', l))
            clauses = [l.strip() for l in text if re.match(r'\s+(requires|ensures)\b', l)]
            out.append(Function(path[len(tree) + 1:], m.group(2), head, clauses, lines[j + 1:k], owner))
            i = k + 1
    return out


def params(f):
    inside = f.head[f.head.index('(') + 1:] if '(' in f.head else ''
    depth, got, word = 0, [], ''
    for c in inside:
        if c == ')' and depth == 0:
            break
        depth += c in '([<'
        depth -= c in ')]>'
        if c == ',' and depth == 0:
            got.append(word.strip())
            word = ''
        else:
            word += c
    got.append(word.strip())
    return [p for p in got if ':' in p and p]


def code(f):
    return [re.sub(r'//.*', '', l) for l in f.body]


def point1(tree, fs):
    for path in sorted(glob.glob(f'{tree}/crates/*/src/**/*.rt', recursive=True)):
        short = path[len(tree) + 1:]
        s = open(path).read()
        for n, l in enumerate(s.split('\n'), 1):
            if re.search(r'\bnumber: (u8|\d+)', l):
                yield f'{short}:{n}: a number for a rule: {l.strip()}'
            if re.search(r'-> Option<Refusal>', l):
                yield f'{short}:{n}: an option that holds an error: {l.strip()}'
        for m in re.finditer(r'enum (\w+) \{(.*?)\n\}', s, re.S):
            if re.search(r'\b(Refused|Nothing|NoRack)\b', m.group(2)):
                yield f'{short}: enum {m.group(1)}: a variant for an error or for nothing'
        for m in re.finditer(r'///[^\n]*False, and nothing done[^\n]*(?:\n\s*///[^\n]*)*\n(?:\s*#.*\n)*\s*(?:pub(?:\(crate\))? )?fn (\w+)', s):
            yield f'{short}: {m.group(1)}: success as a bool'


def point2(tree, fs):
    seen = collections.defaultdict(list)
    for f in fs:
        text = ' '.join(params(f)) + ' ; ' + ' '.join(code(f))
        toks = re.findall(r'\w+|[^\w\s]', text)
        if len(toks) < 12:
            continue
        key = ' '.join('N' if t[0].isdigit() else 'T' if t[0].isupper() else t for t in toks)
        seen[key].append(f)
    for key, group in seen.items():
        if len(group) > 1:
            for f in group:
                yield f'{f.where()}: the same as {", ".join(g.where() for g in group if g is not f)}'


def point3(tree, fs):
    for f in fs:
        body = code(f)
        for n, l in enumerate(body):
            pad = len(l) - len(l.lstrip())
            end = n + 1
            while end < len(body) and (len(body[end]) - len(body[end].lstrip()) > pad or not body[end].strip()):
                end += 1
            inner = '\n'.join(body[n + 1:end])
            if re.match(r"\s*(?:'\w+: )?while\b", l):
                counter = re.search(r'\b(\w+) [+-]= 1\b', inner)
                cond = re.search(r'while (\w+)', l)
                if counter or (cond and re.search(rf'\b{cond.group(1)} [+-]= ', inner)):
                    yield f'{f.where()}: {l.strip()}'
            m = re.match(r'\s*for (\w+) in .*\.\.', l)
            if m:
                v = m.group(1)
                used = len(re.findall(rf'\b{v}\b', inner))
                index = len(re.findall(rf'\[(?:2 \* )?{v}(?: as usize)?(?: \+ 1)?\]|\b(?:from|to|first) \+ {v}\]', inner))
                if used and used == index:
                    yield f'{f.where()}: {l.strip()}'
            m = re.match(r'\s*for (\w+) in (.*\.\..*) \{', l)
            if m and not (used and used == index):
                v = m.group(1)
                if re.search(rf'\[{v}(?: as usize)?\]', inner):
                    yield f'{f.where()}: {l.strip()} (an index, and more than that)'


def point4(tree, fs):
    for f in fs:
        body = [l.strip() for l in code(f) if l.strip()]
        if not body:
            continue
        if body[0].startswith('match ') and all(re.match(r'^([\w:|(),{} ._&]+|\|.*)(=>.*)?,?$', l) or l in ('}', '},') for l in body[1:]):
            arms = [l for l in body[1:] if '=>' in l]
            if arms and all(re.search(r'=>\s*(b?"[^"]*"|\d+|true|false|[\w:]+(\([\w", ]*\))?|format!.*|String::from_str.*|refused\(.*\)|),?$', l) for l in arms) and not any('self.' in l for l in arms):
                yield f'{f.where()}'
        elif body[0].startswith('if word == ') or body[0] in ('if after { 1 } else { 0 }',):
            yield f'{f.where()}'


def point5(tree, fs):
    facts = collections.defaultdict(list)
    shared = collections.defaultdict(list)
    for f in fs:
        crate = f.path.split('/')[1]
        for c in f.clauses:
            m = re.match(r'requires (?:\w+ )?\{ (.*) \}$', c)
            if m and '<' not in m.group(1)[:0]:
                facts[(crate, m.group(1))].append(f)
        names = tuple(sorted(p.split(':')[0].strip().removeprefix('mut ') for p in params(f)))
        names = tuple(n for n in names if n not in ('self',))
        for a in range(len(names)):
            for b in range(a + 1, len(names)):
                for c in range(b + 1, len(names)):
                    shared[(crate, names[a], names[b], names[c])].append(f)
    for (crate, fact), where in facts.items():
        if len(where) >= 3:
            yield f'{crate}: requires {{ {fact} }} in {len(where)}: {", ".join(f.name for f in where)}'
    kept = {}
    for (crate, *names), where in shared.items():
        if len(where) >= 3:
            kept.setdefault((crate, tuple(id(f) for f in where)), (names, where))[0]
            old = kept[(crate, tuple(id(f) for f in where))]
            kept[(crate, tuple(id(f) for f in where))] = (sorted(set(old[0]) | set(names)), where)
    for (crate, _), (names, where) in kept.items():
        yield f'{crate}: parameters {", ".join(names)} in {len(where)}: {", ".join(f.name for f in where)}'


def point6(tree, fs):
    for path in sorted(glob.glob(f'{tree}/crates/*/src/**/*.rt', recursive=True)):
        short = path[len(tree) + 1:]
        s = re.sub(r'//.*', '', open(path).read())
        for m in re.finditer(r'struct (\w+)[^{;]*\{(.*?)\n\}', s, re.S):
            arrays = re.findall(r'(\w+): \[[\w<>; \[\]]+; (\d+)\]', m.group(2))
            sizes = collections.Counter(n for _, n in arrays)
            if any(c > 1 for c in sizes.values()):
                yield f'{short}: struct {m.group(1)}: parallel arrays {", ".join(a for a, _ in arrays)}'
            if arrays and re.search(r'\b(count|size|len|n): (u16|usize)', m.group(2)):
                yield f'{short}: struct {m.group(1)}: arrays with a count beside them'
            if re.search(r'\b(played|end): usize', m.group(2)):
                yield f'{short}: struct {m.group(1)}: an offset into a text'
    for f in fs:
        ps = ' '.join(params(f))
        if re.search(r'script: &\[u8\]', ps) and re.search(r'from: usize', ps):
            yield f'{f.where()}: a text with an offset beside it'
        if re.search(r'\b(n|count): usize', ps) and re.search(r'\[u\d+; \d+\]', ps):
            yield f'{f.where()}: arrays with a count beside them'
        if re.search(r'-> \(\[u\d+; \d+\], usize\)', f.head):
            yield f'{f.where()}: an array with a count beside it'


def point7(tree, fs):
    for f in fs:
        arms = collections.Counter(m.group(1) for l in code(f) if (m := re.search(r'=> (?:self\.)?((?:\w+::)?\w+)\(', l)) and m.group(1) not in ('Some', 'Ok', 'Err', 'format'))
        if any(c >= 2 for c in arms.values()):
            yield f'{f.where()}: {", ".join(f"{n} {c} times" for n, c in arms.items() if c >= 2)}'


def main():
    point = sys.argv[1] if len(sys.argv) > 1 else 'all'
    tree = os.path.abspath(sys.argv[2]) if len(sys.argv) > 2 else os.getcwd()
    fs = functions(tree)
    for n, g in enumerate([point1, point2, point3, point4, point5, point6, point7], 1):
        if point in ('all', str(n)):
            places = list(g(tree, fs))
            print(f'point {n}: {len(places)} places')
            if point != 'all' or '-v' in sys.argv:
                for p in places:
                    print('  ' + p)
    print(f'{len(fs)} functions with a body')


main()
