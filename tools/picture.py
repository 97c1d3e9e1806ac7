"""The picture of a planned queue: hand-in order above the best order, as bars along one time line, as text and as SVG;
and the places of a queue that is split over two cutters. Where the hand-in order has a forbidden succession it has no
times, and the best order is drawn alone.

Nothing is planned here: the best order and the split are the part's answers, and finishes and costs are document 01's
sums over a queue and an order. A bar reaches from the finish before a job to the job's own. A convenience, not proved.
"""
import itertools
import textwrap


MARKS = "#=-+~"                                                     # of kinds 1 to 5, behind a kind's number
PAINT = (34, 33, 32, 35, 31)                                        # the terminal's colours
FILLS = ("#9ecae1", "#fdbe6f", "#a5d99c", "#d9b3e6", "#f2a59b")     # the SVG's, each light enough for black letters
NEVER = 65536                                                       # a gap that is no seconds: it is forbidden


def forbidden(queue, order):
    """The first forbidden succession of an order, in words, or nothing."""
    before = queue.start
    for job in order:
        kind = queue.jobs[job - 1]
        if queue.gaps[before][kind - 1] == NEVER:
            return "kind %d %s is never" % (kind, "after kind %d" % before if before else "on a cold cutter")
        before = kind
    return ""


def finishes(queue, order):
    """The finish at each place of an order without a forbidden succession."""
    ends, before, now = [], queue.start, 0
    for job in order:
        kind = queue.jobs[job - 1]
        now += queue.gaps[before][kind - 1]
        ends.append(now)
        before = kind
    return ends


def cost(queue, order):
    """The cost of an order under the queue's goal."""
    ends = finishes(queue, order)
    if queue.goal == 1:
        return ends[-1] if ends else 0
    return sum(queue.pupils[queue.jobs[job - 1] - 1] * end for job, end in zip(order, ends))


def shares(queue, second, split):
    """For each cutter the queue from its start, and its order."""
    return [(queue, split.first), (queue._replace(start=second), split.second)]


def split_cost(queue, second, split):
    """The cost of a split under the queue's goal."""
    costs = [cost(*share) for share in shares(queue, second, split)]
    return max(costs) if queue.goal == 1 else sum(costs)


def bars(queue, order):
    """Job, kind, begin and end of the bar at each place."""
    ends = finishes(queue, order)
    return [(job, queue.jobs[job - 1], begin, end) for job, begin, end in zip(order, [0] + ends, ends)]


def hand_in(queue):
    return list(range(1, len(queue.jobs) + 1))


def both(queue, plan):
    """The bars of the hand-in order, if it has times, and of the best, each with its name, and the last finish."""
    orders = [("hand-in", hand_in(queue)), ("best", plan.order)]
    rows = [(name, bars(queue, order)) for name, order in orders[bool(forbidden(queue, hand_in(queue))):]]
    return rows, max([end for _, row in rows for *_, end in row], default=0)


def not_permitted(queue):
    """Why jobs may not stand as handed in, or nothing. None is moved, so only allowed places can forbid it."""
    for job, kind in enumerate(queue.jobs, 1):
        first, last = queue.places[kind - 1]
        if not first <= job <= last:
            return "Not permitted: job %d of kind %d may only stand at places %d to %d" % (job, kind, first, last)
    return ""


def measured(queue, amount):
    """What a cost is, by the queue's goal."""
    return ("last finish %d s" if queue.goal == 1 else "total waiting %d pupil-seconds") % amount


def saved(queue, without, best):
    """What is saved by the better of two costs."""
    if without == best:
        return "nothing saved"
    return "saved %d%s (%.1f %%)" % (without - best, " s" * (queue.goal == 1), 100 * (without - best) / without)


def sentences(queue, plan):
    """What is said of the hand-in order, why it is not permitted, and what is said of the best order."""
    never = forbidden(queue, hand_in(queue))
    if never:
        return "Hand-in order: not permitted (%s)" % never, "", "Best order: " + measured(queue, plan.cost)
    without, best, why = cost(queue, hand_in(queue)), plan.cost, not_permitted(queue)
    change = "%d%s %s than by hand-in" % (abs(without - best), " s" * (queue.goal == 1),
                                          "less" if best <= without else "more")
    return ("Hand-in order: " + measured(queue, without), why,
            "Best order: %s, %s" % (measured(queue, best), change if why else saved(queue, without, best)))


def no_time_line(queue):
    return "No time line: " + ("every job finishes at 0 s" if queue.jobs else "there are no jobs")


def ticks(total, room, apart):
    """The times 0, step, 2 step, .. before total, for the least step of 1, 2 or 5 and noughts that keeps them apart."""
    steps = (digit * 10 ** noughts for noughts in itertools.count() for digit in (1, 2, 5))
    return range(0, total, next(step for step in steps if step * room >= total * apart))


# As text


def wrapped(line, width):
    return textwrap.wrap(line, width, break_on_hyphens=False)


def heading(queue):
    return "jobs %d, kinds %d, goal %d, shift %d, start %d" % (len(queue.jobs), len(queue.pupils), *queue[:3])


def places(queue, order, width):
    """A line for each place of an order: place, job, kind and finish."""
    form = "%5s %4s %5s %8s" if width > 24 else "%s %s %s %s"
    rows = [("place", "job", "kind", "finish")] if order else []
    rows += [(place, job, kind, end) for place, (job, kind, _, end) in enumerate(bars(queue, order), 1)]
    return [line for row in rows for line in wrapped(form % row, width)]


def table(queue, plan, width):
    """The queue in a line, then its places."""
    return wrapped(heading(queue), width) + [""] * bool(queue.jobs) + places(queue, plan.order, width)


def split_table(queue, second, split, alone, width):
    """The queue in a line, then the places of each cutter, and what is saved beside the cost of one alone, if any."""
    lines = wrapped("%s, second start %d" % (heading(queue), second), width)
    for name, share in zip(("First", "Second"), shares(queue, second, split)):
        said = measured(queue, cost(*share)) if share[1] else "no jobs"
        lines += [""] + wrapped("%s cutter: %s" % (name, said), width) + places(*share, width)
    one, two = "no order is permitted", measured(queue, split.cost)
    if alone is not None:
        one, two = measured(queue, alone), "%s, %s" % (two, saved(queue, alone, split.cost))
    return lines + [""] + wrapped("One cutter alone: " + one, width) + wrapped("Two cutters: " + two, width)


def cells(row, total, columns):
    """The columns of a row of bars, each a kind and a sign, and how many bars are too short to have one."""
    made, unseen = [], 0
    for _, kind, begin, end in row:
        wide = end * columns // total - begin * columns // total
        made += [(kind, sign) for sign in str(kind) + MARKS[kind - 1] * (wide - 1)][:wide]
        unseen += wide == 0
    return made, unseen


def painted(part, coloured):
    """Columns as text, each run of a kind in its colour."""
    runs = [(kind, "".join(sign for _, sign in run)) for kind, run in itertools.groupby(part, lambda cell: cell[0])]
    return "".join("\33[%dm%s\33[0m" % (PAINT[kind - 1], signs) if coloured and kind else signs for kind, signs in runs)


def labelled(labels, room):
    """Labels from their columns on, and whether each found its place: behind the one before, within one line."""
    line, whole = "", True
    for at, label in labels:
        if at < len(line) + bool(line) or at % room + len(label) > room:
            whole = False
        else:
            line = line.ljust(at) + label
    return line, whole


def as_text(queue, plan, width=80, coloured=False):
    """The picture as lines of at most so many columns. The time line goes on below where that shows every bar."""
    rows, total = both(queue, plan)
    lines = [part for line in sentences(queue, plan) for part in wrapped(line, width)]
    if not total:
        return lines + wrapped(no_time_line(queue), width)
    room = width - len("hand-in ")
    shortest = min(end - begin for _, row in rows for _, _, begin, end in row if end > begin)
    folds = -(-total // (shortest * room))      # so many lines, and the shortest bar has a column
    columns = room * (folds if folds <= 12 else 1)
    strips = []
    for name, row in rows:
        numbers, whole = labelled([(begin * columns // total, str(job)) for job, _, begin, _ in row], room)
        made, unseen = cells(row, total, columns)
        strips += [("job", [(0, sign) for sign in numbers])] * whole + [(name, made)]
        if unseen:
            lines += wrapped("%d of %d bars of the %s order are too short to be seen" % (unseen, len(row), name), width)
    marks = [(tick * columns // total, "%d s" % tick) for tick in ticks(total, columns, len("%d s" % total) + 2)]
    axis = ["|" if any(at == column for at, _ in marks) else "-" for column in range(columns)]
    strips += [("time", [(0, sign) for sign in axis]), ("", [(0, sign) for sign in labelled(marks, room)[0]])]
    for begin in range(0, columns, room):
        parts = [("%7s " % name + painted(made[begin:begin + room], coloured)).rstrip() for name, made in strips]
        lines += [""] + [part for part in parts if part]
    legend = "  ".join("%d%s kind %d" % (kind, MARKS[kind - 1] * 2, kind) for kind in sorted(set(queue.jobs)))
    return lines + [""] + wrapped(legend, width)


# As SVG


EDGE, HIGH, APART = 20, 44, 46      # the margin; the height of a bar, and from the bars of one order to the other's


def words(x, y, said, size=14, more=""):
    return '<text x="%g" y="%g" font-size="%d"%s>%s</text>' % (x, y, size, more, said)


def box(x, y, wide, high, kind):
    return ('<rect x="%g" y="%g" width="%g" height="%g" fill="%s" stroke="#444" stroke-width="0.7"/>'
            % (x, y, wide, high, FILLS[kind - 1]))


def svg_bars(row, scale, top, size):
    """The bars of one order, each with its job and below it its kind, where they have room."""
    drawn = []
    for place, (job, kind, begin, end) in enumerate(row, 1):
        wide = round(scale(end) - scale(begin), 2)
        drawn.append("<g><title>place %d: job %d, kind %d, from %d s to %d s</title>" % (place, job, kind, begin, end))
        drawn.append(box(scale(begin), top, wide, HIGH, kind))
        for said, below, high, more in ((job, 20, size, ' font-weight="bold"'), (kind, 36, size - 3, "")):
            if wide >= len(str(said)) * high * 0.7:
                drawn.append(words(scale((begin + end) / 2), top + below, said, high, ' text-anchor="middle"' + more))
        drawn.append("</g>")
    return drawn


def svg_moves(rows, scale, top):
    """A line for each job, from its bar in one order to its bar in the other."""
    upper, lower = ({job: scale((begin + end) / 2) for job, _, begin, end in row} for row in rows)
    return ['<path d="M%g %dL%g %d" stroke="%s" stroke-width="1.6"/>'
            % (upper[job], top, lower[job], top + APART, FILLS[kind - 1]) for job, kind, *_ in rows[0]]


def svg_time(rows, total, top, wide):
    """How far the time line is below the top, and what is drawn: both orders, or the best alone, above it."""
    def scale(time):
        return round(EDGE + time * wide / total, 2)

    below, size = top + (HIGH + APART) * (len(rows) - 1), 14 if len(rows[0]) <= 24 else 11
    drawn = svg_moves(rows, scale, top + HIGH) if len(rows) == 2 else []
    for at, row in zip((top, below)[-len(rows):], rows):
        drawn += svg_bars(row, scale, at, size)
    for tick in ticks(total, wide, 70):
        anchor = "start" if tick == 0 else "end" if scale(tick) > wide - EDGE else "middle"
        drawn.append('<path d="M%g %dv6" stroke="#444"/>' % (scale(tick), below + HIGH))
        drawn.append(words(scale(tick), below + HIGH + 19, "%d s" % tick, 12, ' text-anchor="%s"' % anchor))
    return below + HIGH - top, drawn


def svg_legend(queue, y, wide):
    """The kinds, and what a bar shows."""
    drawn = []
    for place, kind in enumerate(sorted(set(queue.jobs))):
        drawn.append(box(EDGE + 90 * place, y - 12, 14, 14, kind))
        drawn.append(words(EDGE + 90 * place + 20, y, "kind %d" % kind))
    note = "a bar ends at its job's finish; in it the job, and its kind below"
    return drawn + [words(EDGE + wide, y, note, 12, ' text-anchor="end"')]


def as_svg(queue, plan):
    """The picture as an SVG file."""
    rows, total = both(queue, plan)
    wide, y, bold = max(820, 28 * len(queue.jobs)), 34, ' font-weight="bold"'
    above, why, below = sentences(queue, plan)
    drawn = [words(EDGE, y, above, 16, bold)]
    if why:
        y += 21
        drawn.append(words(EDGE, y, why, 14, ' fill="#b00"'))
    if total:
        high, bars_drawn = svg_time([row for _, row in rows], total, y + 14, wide)
        drawn += bars_drawn
        y += 14 + high + 48
        drawn += svg_legend(queue, y + 28, wide)
    else:
        drawn.append(words(EDGE, y + 24, no_time_line(queue)))
        y += 52
    drawn.append(words(EDGE, y, below, 16, bold))
    size = (wide + 2 * EDGE, y + (46 if total else 20))
    frame = ['<svg xmlns="http://www.w3.org/2000/svg" width="%d" height="%d" viewBox="0 0 %d %d"' % (size + size),
             'font-family="sans-serif">', '<rect width="100%" height="100%" fill="#fff"/>']
    return "\n".join(frame + drawn + ["</svg>", ""])
