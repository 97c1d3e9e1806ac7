#!/usr/bin/env python3
"""Spells the definitions, constructors, fields and lemmas of specs/ and proofs/ in snake case, in every crate.

usage: python3 tools/snake_names.py [--list]

A name that begins with a capital, a type or a fact, stays. A name that two names would share, or that a Rust name of src/ has, is spelled by the table OWN.
What a function's proof declares (proofs/NAME/) stays, since Rattle names most of it. --list writes nothing and prints what would turn.
"""
import collections
import os
import re
import sys

# Names that would fall together with another one.
OWN = {
    "all-in-order": "all_in_order_lem",
    "as-front": "as_front_lem",
    "as-head": "as_head_lem",
    "bench-verdict": "bench_verdict_lem",
    "best-plan": "best_plan_lem",
    "best-split": "has_best_split",
    "by-kind": "jobs_by_kind",
    "first-place": "first_place_uncovered",
    "last-place": "last_place_uncovered",
    "plan-order": "plan_order_is",
    "plan-cost": "plan_cost_is",
    "all_left": "all_left_lem",
    "cost-upto": "cost_upto_lem",
    "countAt": "counted_at",
    "in_order": "in_order_lem",
    "in_place": "in_place_lem",
    "in-turn": "in_turn_lem",
    "is-in": "is_in_lem",
    "jobs-of": "jobs_of_lem",
    "no-split": "no_split_lem",
    "none_of": "none_of_lem",
    "refusal-of": "refusal_of_lem",
    "room-verdict": "room_verdict_lem",
    "value-limit": "value_limit_lem",
}

TOKEN = re.compile(r'[^\s(){}\[\].;,@"«»|↦λ]+')
TOP = re.compile(r"^(?:(?: *(?:(?:unfoldable|abbrev|pub|opaque) )+)|)(record |data |ruleset )?([^\s:(){}]+)(?= )", re.M)
INNER = re.compile(r"^ +([^\s:(){}.]+)(?: [({][^\n]*?[)}])* : ", re.M)
FIELD = re.compile(r"^  (?:pub )?([^\s:(){}.]+) : ", re.M)
USE = re.compile(r"^use .*$", re.M)
KEYWORDS = {"use", "unfolding", "infixl", "infixr", "infix", "open", "mod", "pub", "--", "where"}


def snake(name):
    if "-" not in name and not re.search(r"[a-z0-9₀-₉][A-Z]", name):
        return name
    parts = name.split("-")
    # a dash's last part, if a number or a capital, keeps it
    out = "_".join(re.sub(r"(?<=[a-z0-9₀-₉])[A-Z]", lambda m: "_" + m[0].lower(), p) for p in parts if p)
    return out


def files(root, kinds):
    for folder, dirs, names in os.walk(os.path.join(root, "crates")):
        dirs[:] = sorted(d for d in dirs if d != "out")
        for n in sorted(names):
            if n.endswith(kinds):
                yield os.path.join(folder, n)


def is_function(path):
    """Whether a file is of one function's proof."""
    return re.search(r"/crates/[^/]+/proofs/[^/]+/", path) is not None


def declared(root):
    """The names that specs/ and proofs/ declare, each with the files where."""
    found = collections.defaultdict(set)
    for p in files(root, (".antt",)):
        if is_function(p):
            continue
        with open(p, encoding="utf-8") as f:
            t = f.read()
        for m in TOP.finditer(t):
            if m.group(2) not in KEYWORDS and not m.group(2).startswith("--"):
                found[m.group(2)].add(p)
        for m in [*FIELD.finditer(t), *INNER.finditer(t)]:
            if m.group(1) not in KEYWORDS:
                found[m.group(1)].add(p)
    return found


def table(found):
    """The names that turn, each with its new spelling. A lemma that would have a definition's name gets `_lem`."""
    turned = {}
    words = {snake(n) for n in found if "-" not in n and not n[0].isupper()}
    for name in found:
        if name[0].isupper() and "-" not in name:
            continue
        new = OWN.get(name) or snake(name) + ("_lem" if "-" in name and snake(name) in words else "")
        if new != name:
            turned[name] = new
    return turned


def turn(text, turned):
    return TOKEN.sub(lambda m: turned.get(m[0], m[0]), text)


def main(argv):
    root = os.getcwd()
    found = declared(root)
    turned = table(found)
    if "--list" in argv:
        for old, new in sorted(turned.items()):
            print(old, new)
        return 0
    for p in files(root, (".antt", ".rt")):
        with open(p, encoding="utf-8") as f:
            t = f.read()
        new = turn(t, turned)
        if new != t:
            with open(p, "w", encoding="utf-8") as f:
                f.write(new)
    return 0


if __name__ == "__main__":
    raise SystemExit(main(sys.argv[1:]))
