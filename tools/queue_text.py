#!/usr/bin/env python3
"""Queue messages from a readable text, messages back into text, and what the part answers: its plan and a picture.

usage: queue_text.py plan [QUEUE [SVG]]         a queue planned by the part: place, job, kind and finish, then the
                                                picture; with a second file the picture as SVG too
       queue_text.py draw [QUEUE [SVG]]         the picture alone, as SVG
       queue_text.py split SECOND [QUEUE]       a queue split by the part over two cutters: the same for each; SECOND is
                                                the second cutter's start, the queue's own start the first's
       queue_text.py size [QUEUE]               how much table the part needs for a queue, and how many states planning
                                                can keep at most; nothing is planned
       queue_text.py pack [QUEUE [MESSAGE]]     a queue's message
       queue_text.py show [MESSAGE [TEXT]]      a queue, plan or split plan into text
       queue_text.py --self-test

A QUEUE is a message or a text. Files default to standard input and output. `--entries N` behind plan, draw or split
lends the part a table of at most N entries, where it is otherwise as long as the part asks. A text has one line for each
of these, in any order; `#` starts a comment:

    goal 1            # 1 last finish, 2 total waiting
    shift 1
    start 0           # 0 for a cold cutter, else the kind cut last
    gaps 10 10        # rows 0 to N, in order, each on its own line: seconds to kinds 1 to N, or never
    gaps 20 50
    gaps 40 30
    pupils 3 1        # waiting for one job of kinds 1 to N
    places 1-60 1-60  # first and last place allowed to kinds 1 to N
    jobs 1 2 1        # the kind of each job, by hand-in

N is the number of pupils; left out, goal is 1, shift 60, start 0 and every place allowed. Numbers are written as they
stand: whether a message is accepted is for the part to say (kippertarn_check_queue), and plan, draw, split and size say
which line it refused. They need the part, as `make run` builds it. The exit status is 0, 1 where nothing was planned,
told or written, or 2 for words like none of the above. This tool is a convenience and is not proved.
"""
import collections
import os
import pathlib
import re
import shutil
import signal
import subprocess
import sys

import picture


ROOT = pathlib.Path(__file__).resolve().parent.parent
PART = ROOT / "target" / "c" / "answer"     # tools/answer.c, linked with the part
MOST = 1 << 16                              # bytes that are read: far more than any queue has

Queue = collections.namedtuple("Queue", "goal shift start gaps pupils places jobs")
Plan = collections.namedtuple("Plan", "goal cost kept order")
Split = collections.namedtuple("Split", "goal cost first second")

NAMES = ("goal", "shift", "start", "gaps", "pupils", "places", "jobs")
NEVER = picture.NEVER


class Unreadable(Exception):
    pass


def write_number(value):
    groups = []
    while value > 127:
        groups.append(value & 127 | 128)
        value >>= 7
    return bytes(groups + [value])


class Numbers:
    """The numbers of a message, from behind its opening."""

    def __init__(self, message):
        self.message, self.at = message, 2

    def unreadable(self, said, refusal):
        """What is wrong, with the refusal where a call of the part reads the message: none reads a split plan."""
        return Unreadable(said + ("" if self.message[:2] == b"Q2" else " (refusal %s)" % refusal))

    def next(self, most_groups=3):
        value = 0
        for group in range(most_groups):
            if self.at == len(self.message):
                raise self.unreadable("bytes end in a number", 2)
            byte = self.message[self.at]
            self.at += 1
            value |= (byte & 127) << 7 * group
            if byte < 128:
                if byte == 0 and group > 0:
                    raise self.unreadable("byte 00 ends a number of several groups, before byte %d" % self.at, 3)
                return value
        raise self.unreadable("too many groups in a number, before byte %d" % self.at, 3)

    def run(self, count):
        return [self.next() for _ in range(count)]

    def end(self):
        if self.at < len(self.message):
            raise self.unreadable("%d bytes left over" % (len(self.message) - self.at), 14)


def read_text(text):
    """What a text says: the line and the numbers of each name, those of each row of gaps, and the line behind its end."""
    said, rows, number = {}, [], 0
    for number, line in enumerate(text.splitlines(), 1):
        words = line.split("#")[0].split()
        if not words:
            continue
        name, rest = words[0], words[1:]
        if name not in NAMES:
            raise Unreadable("line %d: one of %s is expected, not %.30s" % (number, ", ".join(NAMES), name))
        if name in said and name != "gaps":
            raise Unreadable("line %d: %s has line %d already" % (number, name, said[name][0]))
        nevers = rest.count("never") if name == "gaps" else 0
        try:
            values = [NEVER if nevers and word == "never" else int(word)
                      for part in rest for word in (part.split("-") if name == "places" else [part])]
        except ValueError:
            raise Unreadable("line %d: numbers are expected after %s, not %.30s" % (number, name, " ".join(rest)))
        if name == "gaps" and values.count(NEVER) > nevers:
            raise Unreadable("line %d: %d is how a message says never: write never" % (number, NEVER))
        if any(value < 0 for value in values):
            raise Unreadable("line %d: a number after %s is negative" % (number, name))
        if name in ("goal", "shift", "start") and len(values) != 1:
            raise Unreadable("line %d: one number is expected after %s" % (number, name))
        said[name] = number, values
        if name == "gaps":
            rows.append(said[name])
    return said, rows, number + 1


def pack(text):
    """The message of a text, and the line of each of its numbers (0 where none says it)."""
    said, rows, end = read_text(text)
    if "pupils" not in said and [values for _, values in rows] != [[]]:     # which has no kinds, for the part to refuse
        raise Unreadable("line %d: a line of pupils is expected before the text ends" % end)
    pupils = said.get("pupils", (0, []))
    kinds = len(pupils[1])
    for line, values in rows:
        if len(values) != kinds:
            raise Unreadable("line %d: %d gaps are expected, one for each kind that has pupils" % (line, kinds))
    if len(rows) != kinds + 1:
        at = rows[kinds + 1][0] if len(rows) > kinds else end
        raise Unreadable("line %d: %d rows of gaps are expected, cold and behind each kind; %d are there"
                         % (at, kinds + 1, len(rows)))
    places = said.get("places", (0, [1, 60] * kinds))
    if len(places[1]) != 2 * kinds:
        raise Unreadable("line %d: first and last place of %d kinds are expected, as 1-60" % (places[0], kinds))
    at_jobs, jobs = said.get("jobs", (0, []))
    parts = [(pupils[0], [1, kinds])]
    parts += [said.get("goal", (0, [1])), said.get("shift", (0, [60])), said.get("start", (0, [0]))]
    parts += rows + [pupils, places, (at_jobs, [len(jobs)] + jobs)]
    message = b"QS" + b"".join(write_number(value) for _, values in parts for value in values)
    return message, [line for line, values in parts for _ in values]


def joined(values):
    return " ".join(map(str, values))


def read_queue(message):
    """The record of a queue message."""
    numbers = Numbers(message)
    edition, kinds, goal, shift, start = numbers.run(5)
    if edition != 1 or not 1 <= kinds <= 5:
        raise numbers.unreadable("edition %d, N %d" % (edition, kinds), "4 or 5")
    gaps = [numbers.run(kinds) for _ in range(kinds + 1)]
    pupils = numbers.run(kinds)
    places = [tuple(numbers.run(2)) for _ in range(kinds)]
    jobs = numbers.run(numbers.next())
    numbers.end()
    return Queue(goal, shift, start, gaps, pupils, places, jobs)


def read_plan(message):
    """The record of a plan message or of a split plan."""
    numbers = Numbers(message)
    edition, goal = numbers.run(2)
    if edition != 1:
        raise numbers.unreadable("edition %d" % edition, 4)
    if message[:2] == b"Q2":
        plan = Split(goal, numbers.next(6), numbers.run(numbers.next()), numbers.run(numbers.next()))
    else:
        plan = Plan(goal, numbers.next(6), numbers.next(6), numbers.run(numbers.next()))
    numbers.end()
    return plan


def show(message):
    """The text of a queue, plan or split plan."""
    if message[:2] == b"QS":
        queue = read_queue(message)
        lines = ["goal %d" % queue.goal, "shift %d" % queue.shift, "start %d" % queue.start]
        lines += ["gaps " + joined("never" if gap == NEVER else gap for gap in row) for row in queue.gaps]
        lines += ["pupils " + joined(queue.pupils), "places " + joined("%d-%d" % pair for pair in queue.places)]
        lines += ["jobs " + joined(queue.jobs)]
    elif message[:2] == b"QP":
        plan = read_plan(message)
        lines = ["plan goal %d" % plan.goal, "cost %d" % plan.cost, "kept %d" % plan.kept]
        lines += ["order " + joined(plan.order)]
    elif message[:2] == b"Q2":
        split = read_plan(message)
        lines = ["split goal %d" % split.goal, "cost %d" % split.cost]
        lines += ["first " + joined(split.first), "second " + joined(split.second)]
    else:
        raise Unreadable("the first two bytes are neither 51 53 nor 51 50 (refusal 1), nor 51 32")
    return "".join(line.rstrip() + "\n" for line in lines)


def queue_message(given):
    """A queue's message, and the line of each of its numbers where it was given as a text."""
    if not given:
        raise Unreadable("empty; a queue is expected, as a message or as a text")
    if given[:2] == b"QS":
        return given, []
    if given[:2] in (b"QP", b"Q2"):
        raise Unreadable("a %s; a queue is expected" % ("plan message" if given[:2] == b"QP" else "split plan"))
    text = given.decode("utf-8-sig", "replace")
    if len(given) > MOST or not all(sign.isprintable() or sign.isspace() for sign in text.replace("\ufffd", "\0")):
        raise Unreadable("no queue: neither a text nor a message, whose first two bytes are 51 53 (refusal 1)")
    return pack(text)


def call(message, *words):
    """The part called on a queue message: the numbers that it answers, and the bytes that it wrote."""
    if not PART.exists():
        raise Unreadable("the part is not built yet; `make run` builds it")
    words = [str(PART)] + [str(word) for word in words]
    answer = subprocess.run(words, input=message, stdout=subprocess.PIPE, check=True).stdout
    numbers, plan = answer.split(b"\n", 1)
    return tuple(map(int, numbers.split())) + (plan,)


def ask(message, entries=None, second=None):
    """The part's answer to a queue message, with a second start to its split: R, V and the bytes that it wrote."""
    return call(message, 2**64 - 1 if entries is None else entries, *([] if second is None else [second]))


def sentences():
    """What each refusal says, by number: the numbers are the C header's, the sentences those of kippertarn_sentence."""
    header, helper = (ROOT / "include" / "kippertarn.h").read_text(), (ROOT / "examples" / "messages.h").read_text()
    numbers = dict(re.findall(r"(KIPPERTARN_\w+) = (\d+)", header))
    return {int(numbers[name]): said for name, said in re.findall(r'case (KIPPERTARN_\w+): return "(.*)";', helper)}


def line_of(message, lines, refusal):
    """The line of the number that was refused: the last one of the shortest beginning that is refused alike."""
    least, most = 2, len(message)
    while least < most:
        middle = (least + most) // 2
        least, most = (least, middle) if ask(message[:middle])[0] == refusal else (middle + 1, most)
    return lines[sum(byte < 128 for byte in message[2:least - 1])]


def in_the_way(queue):
    """The settings that keep a queue from two cutters, each with its place among the message's numbers."""
    jobs, kinds = len(queue.jobs), len(queue.pupils)
    if queue.shift + 1 < jobs:
        yield 3, "The shift is %d, and %d jobs need %d." % (queue.shift, jobs, jobs - 1)
    for at, (first, last) in enumerate(queue.places if jobs else []):
        if first > 1 or last < jobs:
            yield (5 + kinds * (kinds + 2) + 2 * at,
                   "The places of kind %d are %d-%d, and %d jobs need 1-%d." % (at + 1, first, last, jobs, jobs))


def refuse(message, lines, second, refusal, value):
    """Says what was refused, of a text also where, and what would do."""
    line, said = 0, ["refused %d:" % refusal, sentences()[refusal]]
    if refusal == 16:
        said.append("It needs %d entries." % value)
    elif refusal == 19:
        for at, more in in_the_way(read_queue(message)):
            line = line or (lines[at] if lines else 0)
            said.append(more)
    elif refusal == 20:
        said.append("The second start is %d, and the kinds are %d." % (second, len(read_queue(message).pupils)))
    elif lines and 3 <= refusal <= 13:
        line = line_of(message, lines, refusal)
    raise Unreadable(joined(["line %d:" % line] * bool(line) + said))


def answered(given, entries, second=None):
    """A queue and the part's plan for it, or with a second start its split plan."""
    message, lines = queue_message(given)
    refusal, value, plan = ask(message, entries, second)
    if refusal:
        refuse(message, lines, second, refusal, value)
    return read_queue(message), read_plan(plan)


def size_of(given):
    """A queue, the entries of its table and the states that can be kept at most, as the part tells them."""
    message, lines = queue_message(given)
    refusal, entries, states, _ = call(message, "size")
    if refusal:
        refuse(message, lines, None, refusal, 0)
    return read_queue(message), entries, states


def plan_of(given, entries):
    """A queue and the part's plan for it."""
    queue, plan = answered(given, entries)
    if picture.forbidden(queue, plan.order):
        raise Unreadable("the plan's order is forbidden: " + picture.forbidden(queue, plan.order))
    if picture.cost(queue, plan.order) != plan.cost:
        raise Unreadable("the plan's cost is %d, and its order's %d" % (plan.cost, picture.cost(queue, plan.order)))
    return queue, plan


def split_of(given, entries, second):
    """A queue and the part's split plan for it."""
    queue, split = answered(given, entries, second)
    if sorted(split.first + split.second) != picture.hand_in(queue):
        raise Unreadable("the split plan's jobs are not the queue's")
    for share in picture.shares(queue, second, split):
        if picture.forbidden(*share):
            raise Unreadable("an order of the split plan is forbidden: " + picture.forbidden(*share))
    if picture.split_cost(queue, second, split) != split.cost:
        raise Unreadable("the split plan's cost is %d, and its orders' %d"
                         % (split.cost, picture.split_cost(queue, second, split)))
    return queue, split


def alone_of(given, entries):
    """The cost of one cutter alone, or None where it has no order: a queue with a split gets no other refusal."""
    if ask(queue_message(given)[0], entries)[0] == 17:
        return None
    return plan_of(given, entries)[1].cost


CASE_A = bytes.fromhex("51530102010100 0A0A 1432 281E 0301 013C 013C 03 010201")
A_NEVER = bytes.fromhex("51530102010100 0A0A 1432 8080041E 0301 013C 013C 03 010201")
NO_JOBS = bytes.fromhex("51530101013C00 FFFF03 00 8001 01 3C 00")
PLAN_B = bytes.fromhex("51500102C801 07 03 010302")
SPLIT_A = bytes.fromhex("51320101 1E 01 02 02 0103")
NONE_SPLIT = bytes.fromhex("51320102 00 00 00")


def self_test():
    """Document 01's cases, every example file there and back, and texts and bytes that are refused."""
    checks = [pack(show(CASE_A))[0] == CASE_A,
              show(PLAN_B) == "plan goal 2\ncost 200\nkept 7\norder 1 3 2\n",
              show(SPLIT_A) == "split goal 1\ncost 30\nfirst 2\nsecond 1 3\n",
              show(NONE_SPLIT) == "split goal 2\ncost 0\nfirst\nsecond\n",
              pack("gaps 65535 # row 0\ngaps 0\npupils 128\n")[0] == NO_JOBS,
              pack(show(CASE_A).replace("gaps 40", "gaps never"))[0] == A_NEVER,
              pack(show(A_NEVER))[0] == A_NEVER and "\ngaps never 30\n" in show(A_NEVER),
              show(A_NEVER.replace(b"\x80\x80\4", b"\x81\x80\4")).count("gaps 65537 30") == 1,
              pack(__doc__.split("comment:\n")[1].split("N is")[0])[0] == CASE_A]
    examples = sorted((ROOT / "examples").glob("*.queue"))
    checks += [pack(show(path.read_bytes()))[0] == path.read_bytes() for path in examples]
    for bad in [b"", b"Q", b"QT", CASE_A[:-1], CASE_A + b"\1", b"QS\x81\0", b"QS\x81", b"QS\2", b"QP\x80\x80\x80\1",
                SPLIT_A[:-1], SPLIT_A + b"\1", b"Q2\2\1\0\0\0"]:
        checks.append(refused(show, bad))
    for bad in ["goal", "goal 1 2", "goal x", "gaol 1", "goal 1\ngoal 1", "shift -1", "pupils 1",
                "gaps 1\ngaps 2\npupils 1\nplaces 1", "gaps 65536\ngaps 2\npupils 1", "gaps 1\ngaps Never\npupils 1",
                "gaps 1\ngaps 2\npupils never", "gaps 1\ngaps 2\npupils 1\njobs never"]:
        checks.append(refused(pack, bad))
    if not all(checks) or len(examples) < 8:
        print("FAILED queue_text: check %d of %d" % (checks.index(False) + 1 if False in checks else 0, len(checks)))
        return 1
    print("queue_text: %d checks agree" % len(checks))
    return 0


def refused(act, on):
    try:
        act(on)
    except Unreadable:
        return True
    return False


def read_file(name):
    """The bytes of a file, or of standard input: enough of them to tell a queue from anything longer."""
    with open(name, "rb") if name not in ("", "-") else sys.stdin.buffer as file:
        return file.read(MOST + 1)


def write_file(name, made):
    """All of it or nothing, into a file or to standard output."""
    if name in ("", "-"):
        sys.stdout.buffer.write(made)
    elif os.path.exists(name) and not os.path.isfile(name):
        pathlib.Path(name).write_bytes(made)
    else:
        part = pathlib.Path(os.path.realpath(name) + ".part")
        try:
            part.write_bytes(made)
            part.replace(os.path.realpath(name))
        finally:
            part.unlink(missing_ok=True)


def act(name, given, out, entries, second):
    """What a sub-command does with what it was given."""
    width = max(20, min(shutil.get_terminal_size().columns, 200))
    if name == "pack":
        return write_file(out, queue_message(given)[0])
    if name == "show":
        return write_file(out, show(given).encode())
    if name == "size":
        queue, needed, states = size_of(given)
        lines = picture.wrapped(picture.heading(queue), width) + [""]
        lines += picture.wrapped("table entries %d, %d bytes" % (needed, 8 * needed), width)
        return print("\n".join(lines + picture.wrapped("states %d, the most that planning can keep" % states, width)))
    if name == "split":
        queue, split = split_of(given, entries, second)
        alone = alone_of(given, entries)
        return print("\n".join(picture.split_table(queue, second, split, alone, width)))
    queue, plan = plan_of(given, entries)
    if name == "draw":
        return write_file(out, picture.as_svg(queue, plan).encode())
    if out:
        write_file(out, picture.as_svg(queue, plan).encode())
    coloured = sys.stdout.isatty() and os.environ.get("TERM", "dumb") != "dumb" and not os.environ.get("NO_COLOR")
    lines = picture.table(queue, plan, width) + [""] + picture.as_text(queue, plan, width, coloured)
    print("\n".join(lines + ["", "%s has the picture too" % out] * bool(out)))


def main(words):
    if words == ["--self-test"]:
        return self_test()
    entries = second = None
    if words[1:2] == ["--entries"] and words[2:3] and words[2].isdecimal():
        entries = int(words.pop(2))
        words.pop(1)
    if words[:1] == ["split"] and words[1:2] and words[1].isdecimal():
        second = int(words.pop(1))
    name, given, out, *more = words + [""] * 3
    if name == "split":
        more += [out, second is None]   # it writes no file, and cannot go without the second start
    if name == "size":
        more += [out, entries is not None]  # it writes no file, and lends no table
    if name not in ("pack", "show", "plan", "draw", "split", "size") or any(more) or given.startswith("--"):
        print(__doc__.strip())
        return 0 if words in (["--help"], ["-h"]) else 2
    try:
        act(name, read_file(given), out, entries, second)
    except Unreadable as trouble:
        print("queue_text: %s%s" % ("" if given in ("", "-") else given + ": ", trouble), file=sys.stderr)
        return 1
    except OSError as trouble:
        print("queue_text: %s: %s" % (trouble.filename, trouble.strerror), file=sys.stderr)
        return 1
    return 0


if __name__ == "__main__":
    signal.signal(signal.SIGPIPE, signal.SIG_DFL)
    sys.exit(main(sys.argv[1:]))
