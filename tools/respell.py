#!/usr/bin/env python3
"""Brings this repository's own hyphenated names of definitions and lemmas to snake case, as the library spells its words: run once, at the top, after
port.py of the kit. Names of the library, of goals and of what Rattle generates keep their spelling; so do comments (but for words between backticks) and strings.
usage: respell.py KIT_LIBRARY [--dry]"""
import collections
import os
import re
import sys

TOKEN = re.compile(r"[A-Za-z\u0370-\u03ff\u2115\u2124][\w'\u2115\u2124\u2192+\u00d7]*(?:-[\w'\u2115\u2124\u2192+\u00d7]+)+")
DECLARED = re.compile(r"^ *(?:(?:abbrev|opaque|unfoldable|pub|record|data|module|instance) +)*(\S+)(?: [^:]*)? : |^ *(?:(?:abbrev|opaque|unfoldable|pub|record|data) +)*(\S+) :$")
USE = re.compile(r"^ *(?:pub |ghost |open )*use ([\w.'\u2192\u2115\u2124-]+?)(?:\.\{([^}]*)\})?(?: as [\w-]+)?;?$")
# generated names, and names of goals, that a proof of a function cites
MADE = re.compile(r"^(?:Need|After|Else|If|In|Is|Loop|Match|Some|None|Ok|Err)-|-(?:requires|result|ensures|spec)(?:-\d+)?$|^(?:returns|enum|array|slice|struct|overflow|loop|invariant|decreases|view|borrow|cast|index|unreachable)-")


def texts(root):
    for folder, dirs, files in os.walk(os.path.join(root, "crates")):
        dirs[:] = sorted(d for d in dirs if d != "out")
        for f in sorted(files):
            if f.endswith((".rt", ".antt")):
                yield os.path.join(folder, f)


def is_goal_file(path):
    return path.endswith((".antt",)) and os.path.basename(path) in ("Proof.antt", "Answers.antt", "Invariants.antt")


def bare(line, mark):
    """The line's code, and its comment."""
    i, quoted = 0, False
    while i < len(line):
        if line[i] == '"' and (i == 0 or line[i - 1] != "\\"):
            quoted = not quoted
        elif not quoted and line.startswith(mark, i) and (mark == "//" or i == 0 or line[i - 1] == " "):
            return line[:i], line[i:]
        i += 1
    return line, ""


def mark_of(path):
    return "//" if path.endswith(".rt") else "--"


def code_of(path):
    with open(path, encoding="utf-8") as f:
        for line in f.read().split("\n"):
            code = bare(line, mark_of(path))[0]
            yield re.sub(r'"[^"]*"', '""', code)


def kit_names(kit):
    found = set()
    for folder, _, files in os.walk(kit):
        for f in files:
            if f.endswith((".antt", ".rt")):
                with open(os.path.join(folder, f), encoding="utf-8", errors="replace") as t:
                    for line in t:
                        found.update(TOKEN.findall(bare(line, "//" if f.endswith(".rt") else "--")[0]))
    return found


def own_names(root, kit, crates):
    """The hyphenated names that the repository's definitions and lemmas declare or bind."""
    seen, declared, taken = collections.Counter(), set(), set()
    for path in texts(root):
        if is_goal_file(path) or path.endswith(".rt"):
            continue
        for code in code_of(path):
            m = USE.match(code.rstrip())
            taken.update(re.findall(r"[A-Za-z][\w']*", (m[2] or "") if m else code))
        imported = library_names(path, crates)
        for code in code_of(path):
            seen.update(n for n in TOKEN.findall(code) if n not in imported)
            m = DECLARED.match(code)
            if m:
                declared.add(m[1] or m[2])
    names = {n for n in seen if n in declared or n not in kit}
    return names, taken


def library_names(path, crates):
    """What a file imports from the library under a hyphenated name."""
    found = set()
    for code in code_of(path):
        m = USE.match(code.rstrip())
        if m and m[2] and not re.match(r"Rattle\.(?:%s)\." % "|".join(crates), m[1] + "."):
            found.update(n.strip().split(" as ")[0] for n in m[2].split(","))
    return found


def spelled(name):
    """Types in camel case, other words in snake case."""
    if re.search(r"^Is-|-fits?$", name) and name[0].isupper():
        return "".join(w[0].upper() + w[1:] for w in name.split("-"))
    return name.replace("-", "_")


def turn_code(code, names, keep):
    parts = re.split(r'("[^"]*")', code)
    for i in range(0, len(parts), 2):
        parts[i] = TOKEN.sub(lambda m: names[m[0]] if m[0] in names and m[0] not in keep else m[0], parts[i])
    return "".join(parts)


def turn_comment(comment, names):
    return re.sub(r"`[^`]*`", lambda q: TOKEN.sub(lambda m: names.get(m[0], m[0]), q[0]), comment)


def main(argv):
    root, kit, dry = ".", argv[0], "--dry" in argv
    crates = [d for d in sorted(os.listdir("crates")) if os.path.isdir(os.path.join("crates", d))]
    of_kit = kit_names(kit)
    own, taken = own_names(root, of_kit, crates)
    own = {n for n in own if not MADE.search(n)} | {n for n in own if MADE.search(n) and n in OWN_MADE}
    names = {n: spelled(n) for n in sorted(own)}
    together = collections.defaultdict(list)
    for n, to in names.items():
        together[to].append(n)
    for to, froms in sorted(together.items()):
        if len(froms) > 1 or to in taken:
            print("falls together:", to, froms, "and a name that is there" if to in taken else "")
    names.update(APART)
    if dry:
        print(len(names), "names")
        return 0
    for path in texts(root):
        keep = library_names(path, crates)
        with open(path, encoding="utf-8") as f:
            lines = f.read().split("\n")
        out = []
        for line in lines:
            code, comment = bare(line, mark_of(path))
            out.append(turn_code(code, names, keep) + turn_comment(comment, names))
        if out != lines:
            with open(path, "w", encoding="utf-8") as f:
                f.write("\n".join(out))
    print(len(names), "names")
    return 0


# own names that look like generated ones
OWN_MADE = set(
    "Is-calls Is-run borrow-fits returns-asleep returns-cold returns-warm view-accepted view-adds view-back view-fits view-function view-is view-leaves view-reads view-same view-sized"
    " view-stated view-text view-theorem view-value view-value-injective with-st-result without-st-result".split()
)
# where two names would be one
APART = {"bit-and": "bit_and_at"}

if __name__ == "__main__":
    raise SystemExit(main(sys.argv[1:]))
