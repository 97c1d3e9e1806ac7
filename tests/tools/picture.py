"""The text tool's plans, splits, sizes and pictures: those of the README; many more, read back from what was printed and
drawn and held to the finishes that the proved program plan_queue prints; mistakes and refusals as a user meets them."""
import collections
import itertools
import os
import pathlib
import pty
import random
import re
import subprocess
import sys
import tempfile
import textwrap
import xml.etree.ElementTree as xml


ROOT = pathlib.Path(__file__).resolve().parent.parent.parent
TOOL = [sys.executable, str(ROOT / "tools" / "queue_text.py")]
sys.path.insert(0, str(ROOT / "tools"))
import picture  # noqa: E402
import queue_text  # noqa: E402

CHAPTER5, CASE_A = ROOT / "examples" / "chapter5-goal1.queue", ROOT / "examples" / "case-a.queue"
README = (ROOT / "README.md").read_text()
A_DRAWN = textwrap.dedent(README.split("plan examples/case-a.queue\n")[1].split("\n`draw`")[0])
A_TEXT = "gaps 10 10\ngaps 20 50\ngaps 40 30\npupils 3 1\njobs 1 2 1\n"
A_SPLIT = """\
jobs 3, kinds 2, goal 1, shift 4, start 0, second start 0

First cutter: last finish 10 s
place  job  kind   finish
    1    2     2       10

Second cutter: last finish 30 s
place  job  kind   finish
    1    1     1       10
    2    3     1       30

One cutter alone: last finish 70 s
Two cutters: last finish 30 s, saved 40 s (57.1 %)
"""
A_SIZE = """\
jobs 3, kinds 2, goal 1, shift 1, start 0

table entries 12, 96 bytes
states 7, the most that planning can keep
"""
NEVER_TEXT = A_TEXT.replace("40", "never")      # 1 is never cut after 2, so that of A's orders 1 3 2 is left
NEVER_DRAWN = """\
jobs 3, kinds 2, goal 1, shift 60, start 0

place  job  kind   finish
    1    1     1       10
    2    3     1       30
    3    2     2       80

Hand-in order: not permitted (kind 1 after kind 2 is never)
Best order: last finish 80 s

    job 1        3                 2
   best 1########1#################2============================================
   time |--------|--------|--------|--------|--------|--------|--------|--------
        0 s      10 s     20 s     30 s     40 s     50 s     60 s     70 s

1## kind 1  2== kind 2
"""
checks = 0
met = collections.Counter()     # pictures without the hand-in order, and splits that one cutter alone has no order for


def check(fine, *said):
    global checks
    checks += 1
    if not fine:
        print("FAILED picture:", *said)
        sys.exit(1)


def tool(words, given=b"", columns=80):
    """Status, output and errors of the tool; it must never end in Python's own words."""
    ended = subprocess.run(TOOL + [str(word) for word in words], input=given, stdout=subprocess.PIPE, stderr=subprocess.PIPE,
                           env=dict(os.environ, COLUMNS=str(columns)))
    errors = ended.stderr.decode()
    check("Traceback" not in errors, words, errors)
    return ended.returncode, ended.stdout.decode(), errors


def proved(message):
    """Place, job, kind and finish, as the proved program prints them."""
    said = subprocess.run([ROOT / "target" / "bin" / "plan_queue"], input=message, stdout=subprocess.PIPE).stdout.decode()
    return [[int(word) for word in line.split()] for line in said.splitlines()[1:]]


def strip(lines, name, room):
    """A row of the picture, its parts put together again."""
    return "".join(line[8:].ljust(room) for line in lines if re.fullmatch(" *%s( [-1-5#=+~|]*)?" % name, line))


def places(lines):
    """Place, job, kind and finish, of the lines that have them."""
    return [[int(word) for word in line.split()] for line in lines if re.fullmatch(r" *\d+ +\d+ +\d+ +\d+", line)]


def check_text(queue, plan, finishes, columns):
    """The bars of the picture in the terminal begin where the finishes say, and show the kinds that were cut."""
    lines = picture.table(queue, plan, columns) + picture.as_text(queue, plan, columns)
    said = "\n".join(lines)
    check(max(map(len, lines)) <= columns, "columns", columns, said)
    check(places(lines) == finishes, "table", said, finishes)
    before, by_hand, never = queue.start, [[0, 0]], ""
    for kind in queue.jobs:
        if queue.gaps[before][kind - 1] == 65536 and not never:
            never = "not permitted (kind %d %s is never)" % (kind, "after kind %d" % before if before else "on a cold cutter")
        by_hand.append([kind, by_hand[-1][1] + queue.gaps[before][kind - 1]])
        before = kind
    best = [[0, 0]] + [[kind, end] for _, _, kind, end in finishes]
    total = best[-1][1] if never else max(by_hand[-1][1], best[-1][1])
    check(("Hand-in order: " + never if never else "Best order: ") in said.replace("\n", " "), never, said)
    check(bool(never) == ("is never" in said.replace("\n", " ")), never, said)
    met["no hand-in"] += bool(never)
    if total == 0:
        return check("No time line" in said.replace("\n", " "), said)
    drawn = picture.as_text(queue, plan, columns)
    drawn = drawn[drawn.index(""):]
    check(bool(strip(drawn, "hand-in", columns - 8)) == (not never), "a row of the hand-in order", said)
    for name, ends in (("hand-in", by_hand), ("best", best))[bool(never):]:
        row = strip(drawn, name, columns - 8).ljust(len(strip(drawn, "time", columns - 8)))
        begins = [begin * len(row) // total for _, begin in ends]
        expected = [(at, str(kind)) for (kind, _), at, to in zip(ends[1:], begins, begins[1:]) if at < to]
        check([(at, sign) for at, sign in enumerate(row) if sign.isdigit()] == expected, name, expected, said)
        check(len(row.rstrip()) == begins[-1], name, "ends", said)
        unseen = len(ends) - 1 - len(expected)
        note = "%d of %d bars of the %s order are too short" % (unseen, len(ends) - 1, name)
        check((note in " ".join(lines)) == (unseen > 0), note, said)


def check_svg(queue, plan, finishes):
    """The bars of the SVG stand where the finishes say; the best order's are the second half, or all there are."""
    said = picture.as_svg(queue, plan)
    drawn = xml.fromstring(said)
    space = "{http://www.w3.org/2000/svg}"
    bars = [(group.find(space + "title").text, group.find(space + "rect").attrib) for group in drawn.iter(space + "g")]
    ends = [0] + [end for *_, end in finishes]
    if not bars:
        return check("No time line" in said, said)
    never = "is never)" in said
    check(len(bars) == (1 if never else 2) * len(finishes), "bars", len(bars))
    by_hand = 0 if never else int(bars[len(finishes) - 1][0].split()[-2])
    scale = (float(drawn.attrib["width"]) - 40) / max(ends[-1], by_hand)
    for (place, job, kind, end), begin, (title, box) in zip(finishes, ends, bars[-len(finishes):]):
        check(title == "place %d: job %d, kind %d, from %d s to %d s" % (place, job, kind, begin, end), title)
        check(abs(float(box["x"]) - 20 - begin * scale) < 0.1, title, box)
        check(abs(float(box["width"]) - (end - begin) * scale) < 0.1, title, box)


def random_text(chance):
    """A queue that plan_queue's table is long enough for; shift 60 and all places, so that only a never leaves no order."""
    kinds, longest, nevers = chance.randint(1, 5), chance.choice([0, 1, 9, 300, 65535]), chance.choice([0, 0, 0.1, 0.4])
    lines = ["goal %d" % chance.randint(1, 2), "start %d" % chance.randint(0, kinds)]
    lines += ["gaps " + " ".join("never" if chance.random() < nevers else str(chance.randint(0, longest)) for _ in range(kinds))
              for _ in range(kinds + 1)]
    lines += ["pupils " + " ".join(str(chance.randint(0, 9)) for _ in range(kinds))]
    lines += ["jobs " + " ".join(str(chance.randint(1, kinds)) for _ in range(chance.randint(0, 18)))]
    return "\n".join(lines)


def check_pictures():
    check(tool(["plan", CASE_A])[1] == A_DRAWN, "case A is drawn otherwise", tool(["plan", CASE_A])[1])
    check(tool(["plan"], A_TEXT.encode() + b"shift 1")[1] == A_DRAWN, "A's text is drawn otherwise")
    check(tool(["draw", CHAPTER5])[1] == (ROOT / "docs" / "chapter5.svg").read_text(), "docs/chapter5.svg is not what draw gives")
    check(tool(["plan"], NEVER_TEXT.encode())[1] == NEVER_DRAWN, "a never is drawn otherwise", tool(["plan"], NEVER_TEXT.encode())[1])
    chance = random.Random(1)
    messages = [path.read_bytes() for path in sorted((ROOT / "examples").glob("*.queue"))]
    messages += [queue_text.pack(random_text(chance))[0] for _ in range(200)]
    for message in messages:
        if queue_text.ask(message, 8192)[0] == 0:  # as plan_queue can
            (queue, plan), finishes = queue_text.plan_of(message, None), proved(message)
            for columns in (20, 25, 47, 80, 200):
                check_text(queue, plan, finishes, columns)
            check_svg(queue, plan, finishes)
    said = tool(["plan", CHAPTER5])[1]
    check("last finish 1729 s" in said and "last finish 1323 s, saved 406 s (23.5 %)" in said, said)
    said = tool(["plan", ROOT / "examples" / "case-c.queue"])[1]
    check("Not permitted: job 2 of kind 2 may only stand at places 3 to 60" in said and "20 s less" in said, said)
    said = tool(["plan"], A_TEXT.replace("3 1", "0 0").encode() + b"goal 2")[1]
    check("total waiting 0 pupil-seconds, nothing saved" in said, said)
    said = tool(["plan"], A_TEXT.replace("10 10", "never 10").encode())[1]
    check("Hand-in order: not permitted (kind 1 on a cold cutter is never)\nBest order: last finish 70 s\n" in said, said)
    check(met["no hand-in"] > 50, "pictures without the hand-in order", met)


def check_split(message, second):
    """Each cutter's places are those that the proved program prints for its jobs alone; both are told from one table."""
    queue, split = queue_text.split_of(message, None, second)
    wanted, costs = [], []
    for start, order in ((queue.start, split.first), (second, split.second)):
        jobs = sorted(order)
        text = re.sub("(?m)^start .*", "start %d" % start, queue_text.show(message))
        text = re.sub("(?m)^jobs.*", "jobs " + " ".join(str(queue.jobs[job - 1]) for job in jobs), text)
        rows = [[place, jobs[job - 1], kind, end] for place, job, kind, end in proved(queue_text.pack(text)[0])]
        check([job for _, job, _, _ in rows] == order, "a cutter's order", text, order)
        costs.append(sum(end * (queue.pupils[kind - 1] if queue.goal == 2 else place == len(rows)) for place, _, kind, end in rows))
        wanted += rows
    check(split.cost == (max(costs) if queue.goal == 1 else sum(costs)), "the cost", split, costs)
    alone = queue_text.alone_of(message, None)
    check((alone is None) == (queue_text.ask(message)[0] == 17), "one cutter alone", alone)
    met["split alone"] += alone is None
    for columns in (20, 25, 80):
        lines = picture.split_table(queue, second, split, alone, columns)
        check(places(lines) == wanted and max(map(len, lines)) <= columns, "split", "\n".join(lines), wanted)
        check(("no order is permitted" in " ".join(lines)) == (alone is None), "one cutter alone", "\n".join(lines))


def check_splits():
    text = A_TEXT.encode() + b"shift 4"
    check(tool(["split", 0], text)[1] == A_SPLIT, "A is split otherwise", tool(["split", 0], text)[1])
    check(tool(["show"], queue_text.ask(queue_text.pack(text.decode())[0], None, 0)[2])[1] == "split goal 1\ncost 30\nfirst 2\nsecond 1 3\n",
          "A's split plan as text")
    said = tool(["split", 2, ROOT / "examples" / "case-g.queue"])[1]
    check("First cutter: no jobs\n\nSecond cutter: no jobs\n" in said and "last finish 0 s, nothing saved" in said, said)
    chance = random.Random(2)
    for message in [queue_text.pack(random_text(chance))[0] for _ in range(100)] + [queue_text.pack(ALONE)[0]]:
        second = chance.randint(0, len(queue_text.read_queue(message).pupils))
        if queue_text.ask(message, 8192, second)[0] == 0:  # as plan_queue can
            check_split(message, second)
    check(met["split alone"] > 0, "splits that one cutter has no order for", met)
    said = tool(["split", 0], ALONE.encode())[1]
    check(said.endswith("One cutter alone: no order is permitted\nTwo cutters: last finish 30 s\n"), said)
    for text, second, *expected in UNSPLIT:
        status, said, errors = tool(["split", second], text.encode())
        check(status == 1 and not said and errors.startswith("queue_text: " + expected[0]) and errors.count("\n") == 1, text, errors)
        check(all(more in errors for more in expected), text, expected, errors)
    for words in (["split"], ["split", CASE_A], ["split", "-1", CASE_A], ["split", "x"], ["split", 0, CASE_A, "drawn.svg"]):
        check(tool(words)[0] == 2, words)


def counted(queue):
    """The entries and the states of a queue, each kind L and each k looked at: a state has k_L under K_L."""
    most = [queue.jobs.count(kind) for kind in range(1, len(queue.pupils) + 1)]
    states = [left < all_left for k in itertools.product(*(range(count + 1) for count in most)) for left, all_left in zip(k, most)]
    return len(states), sum(states)


def check_size(message):
    """The numbers are those counted out; a table of so many entries is needed and enough, and no plan keeps more."""
    queue, entries, states = queue_text.size_of(message)
    check((entries, states) == counted(queue), "sizes", queue, entries, states)
    check(queue_text.ask(message, entries - 1)[:2] == (16, entries), "a table of an entry fewer", queue)
    refusal, _, plan = queue_text.ask(message, entries)
    check(refusal in (0, 17), "a table as long as the part asks", queue, refusal)
    if refusal == 0:
        kept, never = queue_text.read_plan(plan).kept, any(65536 in row for row in queue.gaps)
        check(kept <= states and (never or queue.shift < 60 or kept == states), "kept", queue, kept, states)
        met["all kept"] += kept == states > 0


def size_told(given):
    """The entries, or what is said in their place."""
    try:
        return "%d entries" % queue_text.size_of(given)[1]
    except queue_text.Unreadable as trouble:
        return str(trouble)


def check_sizes():
    check(tool(["size", CASE_A])[1] == A_SIZE, "A's size is told otherwise", tool(["size", CASE_A])[1])
    check(tool(["size"], A_TEXT.encode() + b"shift 1")[1] == A_SIZE, "the size of A's text is told otherwise")
    said = tool(["size", CHAPTER5])[1]
    check(said.endswith("\n\ntable entries 630, 5040 bytes\nstates 523, the most that planning can keep\n"), said)
    check("size examples/chapter5-goal1.queue\n" + textwrap.indent(said, "    ") in README, "chapter 5's size in the README", said)
    said = tool(["size", ROOT / "examples" / "case-g.queue"])[1]
    check("\ntable entries 2, 16 bytes\nstates 0, " in said, said)
    said = tool(["size", CASE_A], columns=20)[1]
    check(said.split() == A_SIZE.split() and max(map(len, said.splitlines())) <= 20, "A's size in few columns", said)
    chance = random.Random(3)
    messages = [path.read_bytes() for path in sorted((ROOT / "examples").glob("*.queue"))]
    for message in messages + [queue_text.pack(random_text(chance))[0] for _ in range(60)]:
        check_size(message)
    check(met["all kept"] > 20, "plans that keep as many states as can be", met)
    for text, expected in MISTAKES:     # of which a queue without an order has its size
        said = size_told(text.encode("latin-1"))
        check(said.startswith("12 entries" if expected == "refused 17: " else expected), text, expected, said)
    for text, expected in (A_TEXT.replace("1 2 1", "1 7 1"), "line 5: refused 13: "), ("QS\2", "refused 4: "), ("", "empty"):
        status, said, errors = tool(["size"], text.encode())
        check(status == 1 and not said and errors.startswith("queue_text: " + expected) and errors.count("\n") == 1, text, errors)
    for words in (["size", CASE_A, "sizes"], ["size", "--entries", 12, CASE_A], ["size", "--entries", CASE_A]):
        check(tool(words)[0] == 2, words)


def check_largest():
    """60 jobs of 5 kinds: every job has a bar, and a table that is too short is refused with the number it needs."""
    text = "".join("gaps %d %d %d %d %d\n" % tuple(30 + 70 * (i != j) for j in range(1, 6)) for i in range(6))
    text += "pupils 1 1 1 1 1\njobs" + " 1 2 3 4 5" * 12
    status, said, _ = tool(["plan"], text.encode())
    best = strip(said.splitlines(), "best", 72)
    check(status == 0 and [sum(sign == kind for sign in best) for kind in "12345"] == [12] * 5, said)
    check("Hand-in order: last finish 6000 s" in said and "Best order: last finish 2150 s" in said, said)
    status, said, errors = tool(["plan", "--entries", 8192], text.encode())
    check(status == 1 and not said and "refused 16" in errors and "1856465 entries" in errors, errors)
    check(tool(["plan", "--entries", 1856465], text.encode())[0] == 0, "a table of just the entries that are needed")
    status, said, errors = tool(["split", "--entries", 1856464, 0], text.encode())
    check(status == 1 and not said and "refused 16" in errors and "1856465 entries" in errors, errors)
    said = tool(["size"], text.encode())[1]
    check(said.endswith("\ntable entries 1856465, 14851720 bytes\nstates 1713660, the most that planning can keep\n"), said)


def check_colours():
    """In a terminal the bars have colours, and without them the picture is the same."""
    def in_terminal(**more):
        said = b""
        pid, terminal = pty.fork()
        if pid == 0:
            os.execve(TOOL[0], TOOL + ["plan", str(CASE_A)], dict(os.environ, COLUMNS="80", TERM="xterm", **more))
        try:
            while True:
                part = os.read(terminal, 4096)
                if not part:
                    break
                said += part
        except OSError:  # how a terminal says that the other side is gone
            pass
        os.waitpid(pid, 0)
        return said.decode().replace("\r\n", "\n")

    check("\33[34m" in in_terminal() and re.sub("\33\\[\\d+m", "", in_terminal()) == A_DRAWN, in_terminal())
    check(in_terminal(NO_COLOR="1") == A_DRAWN, "NO_COLOR")


ALONE = A_TEXT.replace("50", "never").replace("40", "never")    # 1 and 2 never side by side


MISTAKES = [
    (A_TEXT + "gaol 1", "line 6: one of goal, "),
    (A_TEXT + "shift", "line 6: one number "),
    (A_TEXT + "shift x", "line 6: numbers "),
    (A_TEXT + "shift -1", "line 6: "),
    (A_TEXT + "jobs 1", "line 6: jobs has line 5 already"),
    (A_TEXT + "gaps 1 1", "line 6: 3 rows "),
    (A_TEXT.replace("20 50", "20"), "line 2: 2 gaps "),
    (A_TEXT.replace("gaps 40 30\n", ""), "line 5: 3 rows "),
    (A_TEXT.replace("pupils", "#"), "line 6: a line of pupils "),
    (A_TEXT + "places 1-60", "line 6: first and last "),
    (A_TEXT.replace("1 2 1", "1 7 1"), "line 5: refused 13: "),
    (A_TEXT.replace("50", "65536"), "line 2: 65536 is how a message says never: write never"),
    (A_TEXT.replace("50", "never 65536"), "line 2: 65536 "),
    (A_TEXT.replace("50", "65537"), "line 2: refused 9: "),
    (A_TEXT.replace("50", "nevr"), "line 2: numbers "),
    (A_TEXT.replace("3 1", "never 1"), "line 4: numbers "),
    (A_TEXT.replace("20 50", "never"), "line 2: 2 gaps "),
    (ALONE, "refused 17: "),
    (A_TEXT + "goal 3", "line 6: refused 6: "),
    (A_TEXT + "start 3", "line 6: refused 8: "),
    (A_TEXT + "shift 61", "line 6: refused 7: "),
    (A_TEXT.replace("3 1", "3 1001"), "line 4: refused 10: "),
    (A_TEXT + "places 1-60 2-1", "line 6: refused 11: "),
    (A_TEXT + " 1" * 58 + "\n", "line 6: "),
    (A_TEXT.replace("1 2 1", "1 " * 61), "line 5: refused 12: "),
    (A_TEXT.replace("50", "9999999"), "line 2: refused 3: "),
    ("pupils 1 1 1 1 1 1" + "\ngaps 1 1 1 1 1 1" * 7, "line 1: refused 5: "),
    (A_TEXT + "places 3-60 1-60\nshift 1", "refused 17: "),
    ("", "empty"),
    ("\0\1\2", "no queue: "),
    ("QS", "refused 2: "),
    ("QP", "a plan "),
    ("QS\2", "refused 4: "),
    ("\xff" * 99, "no queue: "),
    ("word " * 20000, "no queue: "),
    ("# nothing", "line 2: a line of pupils "),
    ("gaps", "refused 5: "),
]


UNSPLIT = [
    (A_TEXT + "shift 1", 0, "line 6: refused 19: ", "The shift is 1, and 3 jobs need 2."),
    (A_TEXT + "places 1-2 1-3", 0, "line 6: refused 19: ", "The places of kind 1 are 1-2, and 3 jobs need 1-3."),
    (A_TEXT + "shift 0\nplaces 1-60 2-60", 3, "line 6: refused 19: ", "The shift is 0", "The places of kind 2 are 2-60"),
    (A_TEXT, 3, "refused 20: ", "The second start is 3, and the kinds are 2."),
    (A_TEXT, 2**32, "refused 20: ", "The second start is 4294967296"),
    (A_TEXT.replace("1 2 1", "1 7 1"), 3, "line 5: refused 13: "),
    (ALONE.replace("20", "never"), 0, "refused 17: "),
    ("Q2", 0, "a split plan; a queue "),
]


def check_mistakes():
    """One line, no output, status 1, and no file: neither the one that was asked for nor a part of it."""
    with tempfile.TemporaryDirectory() as room:
        svg = pathlib.Path(room) / "drawn.svg"
        for at, (text, expected) in enumerate(MISTAKES):
            status, said, errors = tool([("plan", "draw")[at % 2], "-", svg], text.encode("latin-1"))
            check(status == 1 and not said and errors.startswith("queue_text: " + expected), repr(text[-30:]), expected, errors)
            check(errors.count("\n") == 1 and not os.listdir(room), text, errors, os.listdir(room))
        nowhere = pathlib.Path(room) / "none" / "drawn.svg"
        for words in (["plan", room], ["plan", svg], ["draw", CASE_A, nowhere], ["draw", CASE_A, room]):
            status, said, errors = tool(words)
            check(status == 1 and not said and errors.count("\n") == 1 and not os.listdir(room), words, status, said, errors)
        for words in ([], ["paint"], ["plan", "--entries"], ["plan", CASE_A, svg, svg], ["draw", "--entries", "x"]):
            check(tool(words)[0] == 2, words)
        check(tool(["plan", CASE_A, svg])[0] == 0 and svg.read_text() == tool(["draw", CASE_A])[1], "the picture beside the plan")
        check(os.listdir(room) == ["drawn.svg"], os.listdir(room))
    said = queue_text.sentences()
    check(sorted(said) == list(range(21)) and all(said.values()), "a sentence for each refusal", said)


check_pictures()
check_largest()
check_splits()
check_sizes()
check_colours()
check_mistakes()
print("picture: %d checks agree" % checks)
