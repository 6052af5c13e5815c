#!/usr/bin/env python3
"""Spells this repository's own definitions and lemmas in snake case: `meet-test` becomes `meet_test`.

usage: respell.py [--list]

Run it once, at the top, after port.py. It reads which names with a dash the files of specs/ and proofs/ declare, and writes them with
underscores in specs/, proofs/, the clauses of src/ and the must-fail edits, and between back quotes in comments and pages. A name that a
file imports from a library keeps its spelling there, and so does what stands behind `tie.` or another generated module, since those names
are Rattle's. Functions of src/, strings, inputs and outputs are left alone. --list prints names that fall together, and writes nothing.
"""
import collections
import glob
import os
import re
import sys

NAME = r"[^\s(){}.;,@\"«»\[\]\\`:]+"
DASHED = re.compile(r"[A-Za-z0-9'₀-₉]-[A-Za-z0-9]")
MODIFIERS = r"(?:(?:pub|abbrev|unfoldable|data|record|mutual|module|ruleset)\s+)*"
DECLARED = re.compile(r"^(\s*)(" + MODIFIERS + r")\(?(" + NAME + r")((?:\s+" + NAME + r")*)\s*(?:[({][^:]*:.*)?:\s*(.*)$")
RECORD = re.compile(r"^\s*" + MODIFIERS + r"(?:data|record)\s+(" + NAME + r")")
GENERATED = re.compile(r"^(tie|goal|[\w+-]*lts)\.")
# fields and constructors of the library that files name without importing them
FIELDS = {"not-nil"}
OWN_CRATES = [os.path.basename(p) for p in glob.glob("crates/*")]
# a name of the library stands in the same file
SPECIAL = {"bit-and": "bit_and_flags"}
snake = lambda n: SPECIAL.get(n, n.replace("-", "_"))


def files():
    for root, _, names in os.walk("crates"):
        if "/out" in root:
            continue
        for name in names:
            path = os.path.join(root, name)
            if name.endswith((".antt", ".rt", ".edit")):
                yield path


def read(path):
    with open(path, encoding="utf-8", newline="") as f:
        return f.read()


def is_function_file(path):
    return re.search(r"/proofs/.*/[^/]*\.antt$", path) is not None


def code(text):
    """The text without its comments."""
    return re.sub(r"--(?![^\s]).*|--$", "", text, flags=re.M)


def declared_names():
    own = collections.defaultdict(set)
    for path in files():
        if not path.endswith(".antt"):
            continue
        for line in code(read(path)).split("\n"):
            m = DECLARED.match(line)
            names = []
            if m and not GENERATED.match(m.group(5)) and not m.group(3).startswith("use"):
                names = [m.group(3)] + m.group(4).split()
            m = RECORD.match(line)
            if m:
                names.append(m.group(1))
            # binders: of a section, a telescope, a λ or a let
            for group in re.findall(r"[({]((?:" + NAME + r"\s+)*" + NAME + r")\s+:\s", line):
                names += group.split()
            for bound in re.findall(r"\blet\s+(" + NAME + r")\s", line):
                names.append(bound)
            if re.match(r"\s*(pub )?use ", line):
                names += re.findall(r"\bas (" + NAME + ")", line)
            for bound in re.findall(r"λ\s+((?:" + NAME + r"\s*)+)\.", line):
                names += bound.split()
            for n in names:
                if DASHED.search(n) and re.match(r"^[A-Za-z0-9_'+₀-₉-]+$", n):
                    own[n].add(path)
        if not is_function_file(path):
            text = code(read(path))
            kept = imports(text)
            for n in re.findall(NAME, text):
                if DASHED.search(n) and re.match(r"^[A-Za-z0-9_'+₀-₉-]+$", n) and n not in kept and n not in FIELDS:
                    own[n].add(path)
    return own


def own_module(path):
    head = re.match(r"Rattle\.([\w+]+)", path)
    return head is not None and head.group(1) in OWN_CRATES


def imports(text):
    """The names that a file takes from libraries, by its use lines."""
    taken = set()
    for m in re.finditer(r"^\s*(?:ghost |pub )*use ([^\n]*)$", text, flags=re.M):
        line = m.group(1).rstrip(";")
        # a tree of modules: walk it with a stack of prefixes
        stack, prefix, token = [], "", ""
        for ch in line:
            if ch == "{":
                stack.append(prefix)
                prefix += token
                token = ""
            elif ch in ",}":
                full = (prefix + token).strip()
                if token.strip() and not own_module(full):
                    taken.update(token.split(" as ")[0].split(".")[-1].split())
                token = ""
                if ch == "}":
                    prefix = stack.pop() if stack else ""
            else:
                token += ch
        full = (prefix + token).strip()
        if token.strip() and not own_module(full):
            taken.update(token.split(" as ")[0].split(".")[-1].split())
    return taken


TOKEN = re.compile(r"--(?=\s|$)[^\n]*|//[^\n]*|\"(?:[^\"\\\n]|\\.)*\"|" + NAME)


def respelt_names():
    """Names with an underscore that the repository declares: port.py may have written some of them so."""
    found = set()
    for path in files():
        if path.endswith(".antt") and not is_function_file(path):
            for line in code(read(path)).split("\n"):
                m = DECLARED.match(line)
                if m:
                    found.update(n for n in [m.group(3)] + m.group(4).split() if "_" in n)
                m = RECORD.match(line)
                if m and "_" in m.group(1):
                    found.add(m.group(1))
    return found


def respell(path, text, own):
    kept = imports(text)
    is_proof = path.endswith(".antt")

    def word(name):
        return snake(name) if name in own and name not in kept else name

    out, end = [], 0
    for m in TOKEN.finditer(text):
        out.append(text[end : m.start()])
        end = m.end()
        t = m.group(0)
        if (t.startswith("--") and is_proof) or t.startswith("//"):
            t = re.sub(r"`[^`\n]*`", lambda q: re.sub(NAME, lambda w: word(w.group(0)), q.group(0)), t)
        elif t.startswith('"') or t.startswith("--"):
            pass
        elif re.search(r"\b(tie|goal|[\w+-]*lts|Tie|Goals)\.$", text[max(0, m.start() - 40) : m.start()]) and is_proof:
            pass
        else:
            t = word(t)
        out.append(t)
    out.append(text[end:])
    return "".join(out)


def main():
    own = declared_names()
    respelt = respelt_names()
    listing = "--list" in sys.argv
    changed = 0
    together = []
    edit_own = dict(own)
    edit_own.update({n.replace("_", "-"): 1 for n in respelt if n.replace("_", "-") not in own})
    for path in files():
        text = read(path)
        new = respell(path, text, edit_own if path.endswith(".edit") else own)
        if listing:
            before = set(re.findall(NAME, code(text)))
            for n in before:
                if n in own and n not in imports(text) and snake(n) in before:
                    together.append((path, n))
        elif new != text:
            with open(path, "w", encoding="utf-8", newline="") as f:
                f.write(new)
            changed += 1
    def page_word(m):
        n = m.group(0)
        return snake(n) if n in own or (DASHED.search(n) and snake(n) in respelt) else n

    for page in ["README.md", "bench/README.md"] + glob.glob("docs/*.md") + glob.glob("docs/changes/*.md"):
        if not os.path.exists(page) or listing:
            continue
        text = read(page)
        new = re.sub(
            r"`[^`\n]*`", lambda q: re.sub(NAME, page_word, q.group(0)), text
        )
        if new != text:
            with open(page, "w", encoding="utf-8", newline="") as f:
                f.write(new)
            changed += 1
    clash = collections.defaultdict(list)
    for n in own:
        clash[snake(n)].append(n)
    for s, ns in clash.items():
        if len(ns) > 1:
            together.append(("two names", ", ".join(ns)))
    for path, n in together:
        print(f"together: {path}: {n}")
    print(f"{len(own)} names, {changed} files")


main()
