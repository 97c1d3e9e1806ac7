#!/usr/bin/env python3
"""Holds docs/MESSAGES.md to include/kippertarn.h, so that neither gains a refusal or a limit without the other.

Compared are the refusals by number and name, and which call gives each, also with the definitions of crates/refusal, crates/queue and
crates/plan; the limits; the worked bytes and entries, with examples/case-a.queue and with what tests/c/cases.c and tests/c/splits.c hold the
archive to; the sentences of examples/messages.h, one for each refusal; and the version, which header, archive and CHANGELOG.md state. Run at the
top of the repository.
"""
import re
import sys
from collections import Counter
from pathlib import Path

failures, compared = [], 0

# The limit that a refusal's words name.
LIMITS = {"KINDS": "KINDS_MOST", "SHIFT": "SHIFT_MOST", "GAP": "NEVER", "PUPILS": "PUPILS_MOST", "PLACES": "PLACE_MOST", "JOBS": "JOBS_MOST",
          "BUFFER": "PLAN_BYTES"}

# What planning and splitting give beside the refusals of a queue message.
BEHIND = {"planning": {"BUFFER", "TABLE", "NO_ORDER"}, "splitting": {"UNCOVERED", "SECOND_START", "BUFFER", "TABLE", "NO_ORDER"}}


def read(path):
    return Path(path).read_text(encoding="utf-8")


def same(what, one, in_one, other, in_other):
    """Two places, each with its name, hold the same by key, and something: each difference is a failure of its own."""
    global compared
    for key in sorted(set(in_one) | set(in_other), key=str):
        compared += 1
        first, second = in_one.get(key, "missing"), in_other.get(key, "missing")
        if first != second or first == "":
            failures.append("%s %s: %s in %s, %s in %s" % (what, key, first, one, second, other))


def section(text, heading):
    """What stands under a heading, up to the next of its level or above."""
    level = heading.split()[0]
    found = re.search(r"^%s$(.*?)(?=^#{1,%d} |\Z)" % (re.escape(heading), len(level)), text, re.M | re.S)
    return found.group(1) if found else ""


def rows(text):
    """The cells of each row of the tables in a text."""
    lines = [line.strip().strip("|").split("|") for line in text.splitlines() if line.startswith("|")]
    return [[cell.strip() for cell in cells] for cells in lines if not set("".join(cells)) <= set("-")]


def worked_bytes(text):
    """The bytes at the beginning of each indented line, in hexadecimal."""
    return " ".join(m.group(1) for m in re.finditer(r"^    ((?:[0-9A-F]{2} )*[0-9A-F]{2})(?:  |$)", text, re.M))


def c_array(text, name):
    """The words between the braces of an array in C."""
    found = re.search(r"\b%s\[\d*\] = \{(.*?)\}" % name, text, re.S)
    return [word.strip() for word in found.group(1).split(",") if word.strip()] if found else []


def c_bytes(text, name):
    return " ".join("%02X" % int(word, 0) for word in c_array(text, name))


def refusals_of(header):
    """Number to name of enum kippertarn_refusal, and the further names of a number."""
    names, others = {}, set()
    for name, number in re.findall(r"^    KIPPERTARN_(\w+) = (\d+)", header, re.M):
        if names.setdefault(int(number), name) != name:
            others.add(name)
    return names, others


def limits_of(header):
    """Name to number of the header's macros that are one number."""
    limits = {name: int(number) for name, number in re.findall(r"^#define KIPPERTARN_(\w+) (\d+)\b", header, re.M)}
    for name, words in re.findall(r"^#define KIPPERTARN_(\w+) KIPPERTARN_ENTRIES\(([\d, ]+)\)", header, re.M):
        kinds, *jobs = map(int, words.split(","))
        limits[name] = kinds
        for count in jobs:
            limits[name] *= count + 1
    limits.update({name: 2**64 - 1 for name in re.findall(r"^#define KIPPERTARN_(\w+) UINT64_MAX", header, re.M)})
    return {name: number for name, number in limits.items() if name != "VERSION_NUMBER"}


def as_macro(name):
    """JOB_KIND for JobKind."""
    return re.sub(r"(?<=[a-z])(?=[A-Z])", "_", name).upper()


def proved_refusals():
    """Number to name by the definition of crates/refusal, and the names that each check can give."""
    numbers = re.findall(r"^reason_number \(?(\w+).*? = (\d+)$", read("crates/refusal/specs/Reasons.antt"), re.M)
    queue = re.findall(r": QueueRefusal (\w+)$", read("crates/queue/specs/Refusals.antt"), re.M)
    plan = re.findall(r": PlanRefusal (\w+)$", read("crates/plan/specs/Refusals.antt"), re.M)
    return {int(number): as_macro(name) for name, number in numbers}, set(map(as_macro, queue)), set(map(as_macro, plan))


def compare_refusals(header, page):
    names, others = refusals_of(header)
    proved, by_queue, by_plan = proved_refusals()
    told = {int(r[0]): r for r in rows(section(page, "## Refusals")) if r[0].isdigit()}
    refused = {number: name for number, name in names.items() if number > 0}
    same("refusal", "the header", refused, "docs/MESSAGES.md", {n: r[1].replace("KIPPERTARN_", "") for n, r in told.items()})
    same("refusal", "the header", refused, "crates/refusal/specs/Reasons.antt", proved)
    for column, crate, given in ((3, "queue", by_queue), (4, "plan", by_plan)):
        same("refusal by check_" + crate, "docs/MESSAGES.md", {n: r[column] == "yes" for n, r in told.items()},
             "crates/%s/specs/Refusals.antt" % crate, {n: name in given for n, name in proved.items()})
    for column, call in ((5, "planning"), (6, "splitting")):
        same("refusal by " + call, "docs/MESSAGES.md", {n: r[column] == "yes" for n, r in told.items()},
             "crates/queue/specs/Refusals.antt and the call", {n: name in by_queue | BEHIND[call] for n, name in proved.items()})
    named = others | {names[0]}
    same("name", "the header", dict.fromkeys(named, True), "docs/MESSAGES.md", {name: True for name in named if "`KIPPERTARN_%s`" % name in page})
    compare_words(header, names, {r[1].replace("KIPPERTARN_", ""): r[2] for r in told.values()})


def compare_words(header, names, conditions):
    """One sentence for each refusal; where there is a limit, the header's comment, the page and the sentence name it."""
    cases = re.findall(r'^ *case KIPPERTARN_(\w+): return "([^"\\]+)";$', read("examples/messages.h"), re.M)
    once = dict.fromkeys(names.values(), 1)
    same("sentences for", "the header", once, "examples/messages.h", dict(Counter(name for name, _ in cases)))
    uses = Counter(words for _, words in cases)
    same("uses of the sentence for", "the header", once, "examples/messages.h", {name: uses[words] for name, words in cases})
    comments = dict(re.findall(r"^    KIPPERTARN_(\w+) = \d+,? +/\* (.*) \*/$", header, re.M))
    limits = limits_of(header)
    for where, words in (("a comment of the header", comments), ("docs/MESSAGES.md", conditions), ("examples/messages.h", dict(cases))):
        same("the limit of", "the header", {name: limits[limit] for name, limit in LIMITS.items()}, where,
             {name: max(map(int, re.findall(r"\d+", words.get(name, ""))), default="missing") for name in LIMITS})


def compare_worked(page):
    cases, splits = read("tests/c/cases.c"), read("tests/c/splits.c")
    queue, plan, split = (section(page, "### A %s, byte by byte" % message) for message in ("queue", "plan", "split plan"))
    example = Path("examples/case-a.queue").read_bytes()
    same("the bytes of", "docs/MESSAGES.md", {"queue A": worked_bytes(queue), "plan A": worked_bytes(plan)},
         "examples/case-a.queue and tests/c/cases.c", {"queue A": example.hex(" ").upper(), "plan A": c_bytes(cases, "plan_a")})
    same("the bytes of", "docs/MESSAGES.md", {"plan B": "".join(re.findall(r"`(51 50 [0-9A-F ]+)`", plan))},
         "tests/c/cases.c", {"plan B": c_bytes(cases, "plan_b")})
    same("the bytes of", "docs/MESSAGES.md", {"split A": worked_bytes(split), "split B": "".join(re.findall(r"`(51 32 [0-9A-F ]+)`", split))},
         "tests/c/splits.c", {"split A": c_bytes(splits, "split_a"), "split B": c_bytes(splits, "split_b")})
    never = section(page, "### A queue with a never, byte by byte")
    same("the bytes of", "docs/MESSAGES.md", {"never": worked_bytes(never), "never's plan": "".join(re.findall(r"`(51 50 [0-9A-F ]+)`", never))},
         "tests/c/cases.c", {"never": c_bytes(cases, "queue_never"), "never's plan": c_bytes(cases, "plan_never")})
    told = [r for r in rows(section(page, "## The table")) if r[0].isdigit()]
    same("entry", "docs/MESSAGES.md", {i: "NONE" if r[4].startswith("none") else r[4] for i, r in enumerate(told)},
         "tests/c/cases.c", dict(enumerate(c_array(cases, "table_a"))))
    same("the number of entry", "docs/MESSAGES.md", {i: int(r[0]) for i, r in enumerate(told)}, "the formula",
         {i: (int(r[1]) - 1) * 6 + int(r[2]) + 3 * int(r[3]) for i, r in enumerate(told)})


def compare_version(header):
    text = re.search(r'^#define KIPPERTARN_VERSION "(\d+)\.(\d+)\.(\d+)"$', header, re.M)
    number = re.search(r"^#define KIPPERTARN_VERSION_NUMBER (\d+)\b", header, re.M)
    proved = re.search(r"^version = version_number (\d+) (\d+) (\d+)$", read("crates/kippertarn/specs/Version.antt"), re.M)
    latest = re.search(r"^## (\d+)\.(\d+)\.(\d+)$", read("CHANGELOG.md"), re.M)
    major, minor, patch = map(int, text.groups()) if text else (0, 0, 0)
    same("the version's", "its string", {"number": 1000000 * major + 1000 * minor + patch},
         "KIPPERTARN_VERSION_NUMBER", {"number": int(number.group(1)) if number else 0})
    for where, found in (("crates/kippertarn/specs/Version.antt", proved), ("CHANGELOG.md", latest)):
        same("the version's", "the header", {"string": text and text.groups()}, where, {"string": found and found.groups()})


def main():
    header, page = read("include/kippertarn.h"), read("docs/MESSAGES.md")
    compare_refusals(header, page)
    same("limit", "the header", limits_of(header), "docs/MESSAGES.md",
         {r[0].replace("KIPPERTARN_", ""): int(r[1]) for r in rows(section(page, "## Limits")) if r[1].isdigit()})
    compare_worked(page)
    compare_version(header)
    for failure in failures:
        print("FAILED agreement: " + failure)
    if not failures:
        print("agreement: header, docs/MESSAGES.md, sentences and version; %d comparisons agree" % compared)
    return 1 if failures else 0


if __name__ == "__main__":
    sys.exit(main())
