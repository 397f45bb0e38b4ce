#!/usr/bin/env python3
"""Respells this repository's own definitions and lemmas as today's Rattle spells its words.

Words are in snake case, types and facts in camel case: `payment-under` becomes `payment_under`, `Where-fits` becomes
`WhereFits`. It ran once, at the top, after the kit's own script (the second line of docs/PORT.md names the commit),
and is kept as a record of what was renamed: on today's tree it finds nothing to do. Names of src/, of Rattle and of its library stay, and so do
the goals that Rattle names (the public names of an Answers or Invariants file).
"""
import collections
import glob
import re
import sys

WORD = r"[^\s(){}\[\].,;:\"`=|⌜⌝]+"
DECLARED = re.compile(r"^(\s*)((?:(?:abbrev|unfoldable|pub|data|record|ruleset)\s+)*)(" + WORD + r")\s*(?:[({][^\n]*)?\s:\s")


def respelled(name):
    parts = name.split("-")
    if parts[0][:1].isupper():
        return "".join(p[:1].upper() + p[1:] for p in parts)
    return "_".join(parts)


def is_word(name):
    return re.fullmatch(r"[A-Za-z][A-Za-z0-9_']*(-[A-Za-z0-9_']+)+", name) is not None


def goal_file(path):
    return path.endswith(("/Answers.antt", "/Invariants.antt", "/Choices.antt"))


def declared(paths):
    """The dashed names that the repository itself declares, with the files that do."""
    names = collections.defaultdict(set)
    for path in paths:
        for line in open(path, encoding="utf-8"):
            if line.lstrip().startswith("--"):
                continue
            m = DECLARED.match(line)
            if m and is_word(m.group(3)) and not (goal_file(path) and "pub" in m.group(2)):
                names[m.group(3)].add(path)
            # what a binder, a let or a lambda names
            for group in re.findall(r"[({]((?:[A-Za-z][A-Za-z0-9_'-]* )+): ", line):
                for name in group.split():
                    if is_word(name):
                        names[name].add(path)
            for name in re.findall(r"(?:let|λ) ([A-Za-z][A-Za-z0-9_'-]*)", line):
                if is_word(name):
                    names[name].add(path)
            m = re.search(r" as ([A-Za-z][A-Za-z0-9_'-]*)\s*$", line)
            if m and line.startswith("use ") and is_word(m.group(1)):
                names[m.group(1)].add(path)
    return names


def foreign(paths):
    """Names that are imported from elsewhere than the repository's own crates."""
    own = {p.split("/")[1] for p in glob.glob("crates/*/")}
    names = set()
    for path in paths:
        for line in open(path, encoding="utf-8"):
            m = re.match(r"\s*(?:ghost )?use ([^{]*)\{([^}]*)\}", line)
            if m and not re.match(r"Rattle\.(" + "|".join(own) + r")\.", m.group(1)):
                for name in m.group(2).split(","):
                    names.add(name.strip().split(" as ")[0])
    return names


def main():
    antt = sorted(glob.glob("crates/*/specs/**/*.antt", recursive=True) + glob.glob("crates/*/proofs/**/*.antt", recursive=True))
    rust = sorted(glob.glob("crates/*/src/**/*.rt", recursive=True))
    edits = sorted(glob.glob("crates/*/must-fail/*.edit"))
    pages = sorted(glob.glob("docs/*.md") + ["README.md"])
    names = declared(antt)
    both = sorted(set(names) & foreign(antt + rust))
    for name in both:
        print("also the library's, left:", name, sorted(names[name]))
        del names[name]
    table = {name: respelled(name) for name in names}
    # names that fall together: with one another, or with a name that stands already
    back = collections.defaultdict(list)
    for name, new in table.items():
        back[new].append(name)
    for new, olds in back.items():
        if len(olds) > 1:
            print("fall together:", olds, new)
    text = "\n".join(open(p, encoding="utf-8").read() for p in antt)
    standing = set(re.findall(r"[A-Za-z][A-Za-z0-9_']*", text))
    for name, new in sorted(table.items()):
        if new in standing:
            print("stands already:", name, new)
    if "--dry" in sys.argv:
        return
    if not table:
        return
    any_name = re.compile(r"(?<![A-Za-z0-9_'-])(" + "|".join(sorted(map(re.escape, table), key=len, reverse=True)) + r")(?![A-Za-z0-9_'-])")

    def swap(s):
        return any_name.sub(lambda m: table[m.group(1)], s)

    def code(line, mark):
        """All of a line but its comment and its strings; in a comment, what stands between backticks."""
        if line.lstrip().startswith(mark):
            return re.sub(r"`[^`\n]*`", lambda m: swap(m.group(0)), line)
        return "".join(part if part.startswith('"') else swap(part) for part in re.split(r'("[^"\n]*")', line))

    for path in antt + rust + edits:
        old = open(path, encoding="utf-8").read()
        goals = set()
        if goal_file(path):
            goals = set(re.findall(r"^(?:abbrev )?pub (" + WORD + r")\s*:", old, re.M))
        new = []
        for line in old.splitlines(keepends=True):
            if goals and any(re.match(r"(?:(?:abbrev )?pub )?" + re.escape(g) + r"\b", line) for g in goals):
                head = re.match(r"((?:abbrev )?(?:pub )?" + WORD + r"(?:\s*:\s*goal\.\S+)?)", line).group(1)
                new.append(head + code(line[len(head):], "--"))
                continue
            new.append(code(line, "--" if path.endswith(".antt") else "//"))
        new = "".join(new)
        if new != old:
            open(path, "w", encoding="utf-8").write(new)
    for path in pages:
        old = open(path, encoding="utf-8").read()
        new = re.sub(r"`[^`\n]*`", lambda m: swap(m.group(0)), old)
        if new != old:
            open(path, "w", encoding="utf-8").write(new)
    print(len(table), "names respelled")


main()
