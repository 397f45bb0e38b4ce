#!/usr/bin/env python3
"""Respells the names of goals and steps in answers and invariants: a name from the source keeps its underscores, and so do
Rattle's own words, as `loop-my_var-preserved`, `in_ok-push`, `overflow_add-n`. It ran once, at the top, after respell.py, and is kept as a record."""
import glob
import re

RUST = set()
for path in glob.glob("crates/*/src/**/*.rt", recursive=True):
    RUST |= set(re.findall(r"\b[a-z][a-z0-9]*(?:_[a-z0-9]+)+\b", open(path, encoding="utf-8").read()))
RUST |= {"as_slice", "unsigned_abs", "from_residual", "split_at", "is_some", "is_none", "unwrap_or", "index_mut", "saturating_sub", "saturating_mul", "type_inv", "in_default", "in_ok", "in_err", "invariant_of", "in_rest", "push_reserved", "put_line_at", "as_str", "enumerate"}
RUST |= {"overflow_" + w for w in ("add", "sub", "mul", "cast", "shl", "shr", "step", "neg")} | {"nonzero_div", "nonzero_rem", "slice_bounds", "offset_bounds"}
WORDS = sorted((w.replace("_", "-") for w in RUST), key=len, reverse=True)
PART = re.compile(r"(?<![A-Za-z0-9_'])(" + "|".join(map(re.escape, WORDS)) + r")(?![A-Za-z0-9_'])")


def fix(token):
    return PART.sub(lambda m: m.group(1).replace("-", "_"), token)


TOKEN = re.compile(r"(?<=[.])[A-Za-z][A-Za-z0-9_']*(?:-[A-Za-z0-9_']+)+")
for path in glob.glob("crates/*/proofs/**/Answers.antt", recursive=True) + glob.glob("crates/*/proofs/**/Invariants.antt", recursive=True):
    old = open(path, encoding="utf-8").read()
    goals = set(re.findall(r"^(?:abbrev )?pub (\S+)\s*:", old, re.M))
    new = []
    for line in old.splitlines(keepends=True):
        if line.startswith("use "):
            m = re.match(r"(use Rattle\.\S+\.(?:Goals|Given)\.\{)(.*)(\}\s*)$", line)
            if m:
                items = [x.strip() for x in m.group(2).split(",")]
                line = m.group(1) + ", ".join(fix(x) for x in items) + m.group(3)
            new.append(line)
            continue
        m = re.match(r"((?:abbrev )?pub )(\S+)(.*)", line, re.S)
        if m:
            line = m.group(1) + fix(m.group(2)) + m.group(3)
        else:
            m = re.match(r"(\S+)(.*)", line, re.S)
            if m and m.group(1) in goals:
                line = fix(m.group(1)) + m.group(2)
        line = TOKEN.sub(lambda m: fix(m.group(0)), line)
        # the cases of an elim on a branch
        line = re.sub(r"(\[ ?|\| ?)((?:then|else|in)-[A-Za-z0-9_'-]+)", lambda m: m.group(1) + fix(m.group(2)), line)
        new.append(line)
    new = "".join(new)
    if new != old:
        open(path, "w", encoding="utf-8").write(new)
