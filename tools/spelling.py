#!/usr/bin/env python3
"""Turns this repository's own definitions and lemmas to the spelling of today's Rattle.

usage: tools/spelling.py [--list] [FOLDER]      (FOLDER: the top of a checkout, the one that this file stands in by default)

A type, and a fact spelled as a type, is in upper camel case (`Is-block` becomes `IsBlock`); every other name that specs/ or proofs/
declare is in snake case (`spread-over` becomes `spread_over`). Names that Rattle makes (of goals, steps and loops), names of the
library, functions of src/, strings and comments stay as they are. Run once, after the upgrade script of the kit; `--list` prints the
table of names and those that would fall together, and writes nothing.
"""
import os
import re
import sys

TOKEN = re.compile(r"[^\s(){}\[\],;:.=λ→«»|\"`]+")
DECLARED = re.compile(r"^(?:abbrev )?(?:unfoldable )?(?:pub )?([^\s(){}:=λ.,;]+)(?: (?:[^\s(){}:=λ.,;]+ )*| \{[^}]*\} )?:\s+(.*)$")
MEMBER = re.compile(r"^ +(?:pub )?([^\s(){}:=λ.,;]+(?: [^\s(){}:=λ.,;]+)*) : (.*)$")
TYPES = re.compile(r"^(?:abbrev )?(?:unfoldable )?(?:pub )?(?:record|data) ([^\s(){}:]+)")
BOUND = re.compile(r"(?:\blet |[({])([^\s(){}:=λ.,;]+(?: [^\s(){}:=λ.,;]+)*) (?::|=) ")
LAMBDA = re.compile(r"λ ([^.()]+)\.")
MADE = ("Answers.antt", "Invariants.antt", "Choices.antt", "Proof.antt")


def walk(top, ends):
    for folder, dirs, files in os.walk(os.path.join(top, "crates")):
        dirs[:] = sorted(d for d in dirs if d != "out")
        for f in sorted(files):
            if f.endswith(ends):
                yield os.path.join(folder, f)


def read(path):
    with open(path, encoding="utf-8") as f:
        return f.read()


def camel(name):
    return "".join(p[:1].upper() + p[1:] for p in name.split("-"))


def snake(name):
    return re.sub(r"(?<=[a-z])(?=[A-Z])", "_", name.replace("-", "_")).lower()


def declared(top):
    """The names with a dash that the repository declares itself: name -> its new spelling."""
    table, crates = {}, set(os.listdir(os.path.join(top, "crates")))
    for path in walk(top, (".antt",)):
        for line in read(path).splitlines():
            code = line.split("--")[0] if line.lstrip().startswith("--") else line
            m = TYPES.match(code)
            if m:
                name, is_type = [m.group(1)], True
            else:
                m = DECLARED.match(code)
                if m and m.group(2).startswith("goal."):
                    continue
                if m:
                    name = [m.group(1)]
                    is_type = bool(re.search(r"(?:^|→ )Type 0$", m.group(2))) and name[0][:1].isupper()
                else:
                    m = MEMBER.match(code)
                    name = m.group(1).split() if m else []
                    is_type = False
            for n in name:
                if "-" in n.strip("-") and re.match(r"^[A-Za-z][\w'-]*$", n):
                    table[n] = camel(n) if is_type or n in table and table[n][:1].isupper() else snake(n)
    return table, crates


def imported(text, crates):
    """The names that a file brings in from elsewhere than this repository."""
    out = set()
    for m in re.finditer(r"^\s*(?:pub )?(?:ghost )?use ([^\s{;]+?)\.?(?:\{([^}]*)\})?;?$", text, re.M):
        parts = m.group(1).split(".")
        own = parts[0] == "Rattle" and len(parts) > 1 and parts[1] in crates
        if not own and m.group(2):
            for item in m.group(2).split(","):
                out.add(item.split(" as ")[-1].strip())
                out.add(item.split(" as ")[0].strip())
    return out


def locals_of(text):
    out = set()
    for m in BOUND.finditer(text):
        out.update(m.group(1).split())
    for m in LAMBDA.finditer(text):
        out.update(m.group(1).split())
    return {n for n in out if re.match(r"^[a-z][\w']*(-[\w']+)+$", n)}


def turn(path, text, table, crates, members):
    made = os.path.basename(path) in MADE
    foreign = imported(text, crates)
    names = {n: new for n, new in table.items() if n not in foreign}
    if path.endswith(".antt"):
        for n in locals_of(text):
            if n not in foreign:
                names.setdefault(n, snake(n))
    lines = []
    for line in text.split("\n"):
        comment = "--" if path.endswith(".antt") else "//"
        stands = line.lstrip().startswith(comment)
        if path.endswith(".antt") and re.match(r"^\s*(pub )?use ", line) and not re.search(r"\bRattle\.(%s)\b" % "|".join(sorted(crates)), line):
            lines.append(line)
            continue

        def one(m):
            word, at = m.group(0), m.start()
            if word not in names:
                return word
            if at and line[at - 1] == "." and made and not re.match(r"^\s*(pub )?use ", line) and word not in members:
                head = re.search(r"([^\s(){}\[\],;:=λ→]+)\.$", line[:at])
                root = head.group(1).split(".")[0] if head else ""
                if not root or root in ("c", "w", "l", "goal", "g"):
                    return word
            if at and line[at - 1] == "." and line[:at].endswith("goal."):
                return word
            return names[word]

        if stands:
            line = re.sub(r"`([^`]+)`", lambda q: "`" + names.get(q.group(1), q.group(1)) + "`", line)
        else:
            line = TOKEN.sub(one, line)
        lines.append(line)
    return "\n".join(lines), names


def fields(top):
    out = set()
    for path in walk(top, (".antt",)):
        if "/specs/" not in path and "/proofs/" not in path:
            continue
        inside = False
        for line in read(path).splitlines():
            if TYPES.match(line):
                inside = True
            elif line and not line.startswith(" ") and not line.startswith("--"):
                inside = False
            m = MEMBER.match(line)
            if inside and m:
                out.update(m.group(1).split())
    return out


def main(argv):
    listing = "--list" in argv
    rest = [a for a in argv if a != "--list"]
    top = os.path.abspath(rest[0]) if rest else os.path.dirname(os.path.dirname(os.path.abspath(__file__)))
    table, crates = declared(top)
    members = fields(top)
    clashes = 0
    seen = {}
    for old, new in sorted(table.items()):
        if new in seen:
            print(f"together: {seen[new]} and {old} -> {new}")
            clashes += 1
        seen[new] = old
    paths = list(walk(top, (".antt", ".rt", ".edit")))
    for path in paths:
        text = read(path)
        new, names = turn(path, text, table, crates, members)
        before = set(TOKEN.findall(re.sub(r"(?m)^\s*(--|//).*$", "", text)))
        for old in names:
            if old in before and names[old] in before:
                print(f"together: {os.path.relpath(path, top)}: {old} -> {names[old]} stands there already")
                clashes += 1
        if new != text and not listing:
            with open(path, "w", encoding="utf-8") as f:
                f.write(new)
    if listing:
        for old, new in sorted(table.items()):
            print(f"{old} -> {new}")
    print(f"spelling: {len(table)} names, {clashes} that fall together")


if __name__ == "__main__":
    main(sys.argv[1:])
