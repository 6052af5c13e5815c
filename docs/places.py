#!/usr/bin/env python3
"""Counts the places that docs/DESIGN-PASS.md speaks of, in crates/*/src. At the top of the repository: python3 docs/places.py WHAT [ARGUMENTS]."""
import collections
import difflib
import glob
import itertools
import re
import sys


def sources():
    for path in sorted(glob.glob('crates/*/src/*.rt')):
        yield path[7:].replace('/src/', '/'), re.sub(r'//.*', '', open(path).read())


def functions():
    """Each function or method: where, name, parameters, result, clauses, body."""
    for where, text in sources():
        for m in re.finditer(r'^( *)(?:pub )?(?:extern "C" )?fn (\w+)(?:<[^\n]*?>)?\((.*?)^\1\}', text, re.S | re.M):
            indent, name, whole = m.group(1), m.group(2), m.group(0)
            if '{' not in whole:
                continue
            opening = '\n' + indent + '{\n'
            if opening in whole:
                head, body = whole.split(opening, 1)
            else:
                head, body = re.split(r'\{\n(?=    )', whole, maxsplit=1) if re.search(r'\{\n(?=    )', whole) else (whole, '')
            signature = re.split(r'^\s+(?:requires|ensures)', head, flags=re.M)[0]
            parameters = re.findall(r'(?:mut )?(\w+): ([^,()]+(?:\([^)]*\))?)', re.sub(r'->.*', '', signature, flags=re.S)[signature.index('('):])
            result = (re.findall(r'->\s*(.*)', signature, re.S) or [''])[0].strip()
            clauses = re.findall(r'(requires|ensures)(?: \w+)? \{ (.*?) \}\s*(?=\n|$)', head, re.S)
            yield where + ': ' + name, parameters, result, clauses, body


def parts(clause):
    """A clause cut at its outermost ×."""
    out, depth, part = [], 0, ''
    for c in ' '.join(clause.split()):
        depth += (c == '(') - (c == ')')
        if c == '×' and depth == 0:
            out.append(part)
            part = ''
        else:
            part += c
    return [re.sub(r'^\((.*)\)$', r'\1', x.strip()) if x.strip().count('(') == x.strip().count(')') else x.strip() for x in out + [part]]


def enums():
    for where, text in sources():
        for name, body in re.findall(r'^(?:pub )?enum (\w+)(?:<[^>]*>)? \{(.*?)^\}', text, re.S | re.M):
            print(where + ':', name, '=', ' '.join(body.split()))


def loops():
    for at, _, _, _, body in functions():
        lines = body.split('\n')
        for i, line in enumerate(lines):
            m = re.match(r"( *)(?:'\w+: )?(while|for|loop)\b(.*)", line)
            if not m:
                continue
            inner = '\n'.join(itertools.takewhile(lambda x: not x.startswith(m.group(1) + '}'), lines[i + 1:]))
            names, kind = re.findall(r'[a-z]\w*', m.group(3)), 'other'
            if m.group(2) == 'for':
                kind = 'for-index' if re.match(r' [a-z]\w* in 0\.\.', m.group(3)) else 'for-other'
            elif any(re.search(r'^\s*%s \+= 1;' % x, inner, re.M) for x in names):
                kind = 'count-up'
            elif any(re.search(r'^\s*%s -= 1;' % x, inner, re.M) for x in names):
                kind = 'count-down'
            elif any(re.search(r'^\s*%s \+= \w+;' % x, inner, re.M) for x in names):
                kind = 'step-up'
            print(kind, at, (m.group(2) + m.group(3)).rstrip(' {'))


def casts():
    for at, parameters, result, _, body in functions():
        if re.fullmatch(r'\s*(\w+ as \w+|\w+)\s*\}?\s*', body) and len(parameters) == 1:
            print(at, parameters[0][1].strip(), '->', result)


def twins(likeness, least):
    def tokens(parameters, body):
        s = ' '.join(t for _, t in parameters) + body
        s = re.sub(r'\b[A-Z]\w*\b', 'T', re.sub(r'\b[ui](8|16|32|64|size)\b', 'T', re.sub(r'[Rr]egisters?', '', s)))
        return re.findall(r'\w+|\S', re.sub(r'\d+(T)?', '0', s))
    known = [(at, tokens(p, b)) for at, p, _, _, b in functions()]
    known = [(at, t, collections.Counter(t)) for at, t in known if len(t) >= least]
    parent = list(range(len(known)))

    def root(i):
        while parent[i] != i:
            i = parent[i]
        return i
    for i, j in itertools.combinations(range(len(known)), 2):
        a, b = known[i], known[j]
        if 2 * sum((a[2] & b[2]).values()) / (len(a[1]) + len(b[1])) >= likeness and difflib.SequenceMatcher(None, a[1], b[1], False).ratio() >= likeness:
            parent[root(i)] = root(j)
    groups = collections.defaultdict(list)
    for i, x in enumerate(known):
        groups[root(i)].append(x[0])
    groups = sorted(g for g in groups.values() if len(g) > 1)
    print(len(groups), 'groups', sum(map(len, groups)), 'functions')
    for g in groups:
        print(len(g), '|', ' ; '.join(g))


def facts():
    by = collections.defaultdict(set)
    for at, _, _, clauses, _ in functions():
        for _, clause in clauses:
            for part in parts(clause):
                by[re.sub(r'\.(now|old|new|entry)\b', '', part)].add(at)
    for part, ats in sorted(by.items(), key=lambda x: -len(x[1])):
        if len(ats) >= 3:
            print(len(ats), '|', part, '|', ' ; '.join(sorted(ats)))


def long(least):
    for at, parameters, _, _, _ in functions():
        if len(parameters) >= least:
            print(len(parameters), at)


WHAT = sys.argv[1]
if WHAT == 'count':
    print(len(list(functions())))
elif WHAT == 'twins':
    twins(float(sys.argv[2]), int(sys.argv[3]))
elif WHAT == 'long':
    long(int(sys.argv[2]))
else:
    {'enums': enums, 'loops': loops, 'casts': casts, 'facts': facts}[WHAT]()
