#!/usr/bin/env python3
"""Draws what `grasp_replay replay`, `resolve` or `keep` wrote as a message sequence chart: SVG on standard output.

usage: chart.py [--script SCRIPT] [--title TITLE] [--lines A-B] [--nodes A,B..] [--all] [REPORTS]
       chart.py [--title TITLE] [--lines A-B] [--nodes A,B..] [TRACE..]

REPORTS is a file of report lines, `LINE = ANSWER`; without it, or with -, standard input is read. The lines of a script up
to `start` may stand in front of the reports, or --script names the script that was run; without it a file NAME.script beside
NAME.reports is taken. They tell the nodes and links. Without them the nodes are those that the reports name, and where these
are at most two, one link joins nodes 1 and 2.

--lines draws the reports from line A to line B alone, --nodes what has to do with these nodes alone; what happened before and
elsewhere is reckoned all the same. Calls that are answered `notyet`, one behind the other, are one row, unless --all is given.
A chart of 1,000 lines is about 48,000 pixels high and repeats its heads. Browsers show it; rsvg-convert takes 32,767.

Each node has a lifeline, and time goes downwards. Arrows are drawn where something is delivered: solid for a datagram and
for bytes of a stream, dashed for the arrival of a stream that was dialled. A box is an agent's call with its answer, a
cross the end of a stream at the side that is told of it, and the readings of clocks stand at the left with the numbers of
the lines: those of the script where that is known, as in the program's `bad script in line L`, and else those of the reports.
Every mark shows its report line when it is pointed at. @K is the address of node K, and .. stands in place of
the rest of a long value.

Reports don't tell what a delivery made a node send. The tool reckons it by the rules of a node: which node dials a stream,
which datagrams a discovery or a flood makes and where they are sent on, and what a piece of a stream carries. A session
number is reckoned with five bytes, and a request isn't taken to be declined as `busy`; only the nodes know better. A
datagram or a stream whose sender can't be told so is written at the left and gets no arrow.

Where the first line begins with a time, it is a TRACE: the lines that `grasp_node run` writes with GRASP_TRACE, or the log of
`grasp_node serve` at the level `traffic`. It may have the lines of several nodes, and several files may be named, whose lines are
counted as if they were one file. Lines without the name of a node are taken to be of one that is named as their file. Each node
has a lifeline, and behind these each peer that is only named. At the left are the numbers of the lines and their times; the
distances aren't to scale. A dial that is an opening at the other node, a message, a closing and a datagram are arrows, from the
line of the node that sent it to that of the node that it came to. What only one node tells is an arrow to or from the lifeline of
its peer, dotted where that peer wrote a trace as well. A cross is at the end of what was lost or failed, and a box is an event of the
log. Which streams of two nodes are one, and which neighbour is which node, is told by the messages that both have, and for streams
without such by addresses and times. Neighbours that were sent the same datagrams, and sent none of their own, may be taken for one
another. --nodes has the names of nodes, as in their lines or as at the heads of the lifelines, and --lines draws an arrow where it
has one of the arrow's two lines.

The exit status is 0 where a chart was written. It is 1 where the input is wrong: a line on standard error says how and in
which line, counted from 1, and nothing is drawn. It is 2 for words that are none of these.
"""
import os
import pathlib
import re
import sys
from dataclasses import dataclass, field
from xml.sax.saxutils import escape, quoteattr

sys.dont_write_bytecode = True
sys.path.insert(0, str(pathlib.Path(__file__).resolve().parent))
from reports import NODE_ADDRESS, Network, Refused, Report, other, read_all  # noqa: E402
from traces import Story, is_trace, read_traces, readable_address, shown_locator, shown_words  # noqa: E402

VERSION = "chart.py 0.1.0"

# ---- What is drawn for each report.

QUIET = 3           # so many calls that are answered `notyet`, one behind the other, are drawn as one


@dataclass
class Mark:
    """One row of the chart. A note stands at one node, an arrow goes from one to another."""
    report: Report
    kind: str
    at: int = 0         # the node of a note, a cross or a reading, and where an arrow ends
    start: int = 0      # where an arrow begins
    lines: list = field(default_factory=list)
    under: list = field(default_factory=list)
    faint: bool = False
    crossed: bool = False


def marks_of(network, reports):
    return [mark_of(network, report) for report in reports]


def mark_of(network, report):
    """Carries a report out, and answers what is drawn for it."""
    if report.asa or report.kind == "api":
        mark = call_mark(network, report)
    elif report.kind == "datagram":
        mark = datagram_mark(network, report)
    elif report.kind in ("arrive", "bytes", "cut"):
        mark = stream_mark(network, report)
    else:
        return node_mark(network, report)
    if mark.at and not report.hold and report.answer != ["nothing"]:
        mark.under += network.drain(network.nodes[mark.at], 256)
    if report.hold:
        mark.lines[0] = f"hold {mark.lines[0]}"
    return mark


def call_mark(network, report):
    network.call(report)
    front = f"asa {report.asa}: " if report.kind == "api" and report.asa else "doubter: " if report.kind == "doubter" else ""
    words = " ".join(short(word) for word in report.words)
    answer = " ".join(short(word) for word in report.answer)
    return Mark(report, "call", report.node, 0, wrapped(front + words) + wrapped(f"= {answer}"),
                faint=report.answer[0] == "refused")


def datagram_mark(network, report):
    number = int(report.words[0])
    known = 1 <= number <= len(network.datagrams)
    if report.answer == ["nothing"]:
        return side_mark(report, "nothing", "there is no such datagram yet")
    if not known:
        return side_mark(report, "untold", "whose datagram it is isn't told")
    datagram = network.datagrams[number - 1]
    again = " again" if datagram.deliveries else ""
    datagram.deliveries += 1
    network.hear_datagram(datagram)
    label = wrapped(f"datagram {number}{again}: {shortened(datagram.message.words)}", 52)
    return Mark(report, "datagram", datagram.receiver, datagram.sender, label)


def stream_mark(network, report):
    number = int(report.words[0])
    if report.answer == ["nothing"]:
        return side_mark(report, "nothing", "there is nothing that could take it")
    if not 1 <= number <= len(network.streams):
        return side_mark(report, "untold", "who dialled this stream isn't told")
    stream = network.streams[number - 1]
    if report.kind == "arrive":
        stream.arrived = True
        turned = report.answer == ["turned"]
        label = f"stream {number} arrives" + (" and is turned away" if turned else "")
        return Mark(report, "arrival", stream.far, stream.near, [label], crossed=turned)
    side = report.words[1]
    if report.kind == "cut":
        network.forget(network.nodes[stream.node(side)], stream)
        return Mark(report, "cut", stream.node(side), 0, [f"cut {number} {side}"])
    return bytes_mark(network, report, stream, side)


def bytes_mark(network, report, stream, side):
    whole, cut = stream.deliver(side, int(report.words[2]))
    node = network.nodes[stream.node(side)]
    carried = [shortened(part.words) for part in whole] + ["a part of a message"] * cut
    for part in whole:
        network.hear(node, stream, side, part)
    lines = [f"stream {stream.number}, {report.words[2]} bytes to the {side} side:"]
    for part in carried or ["nothing is left"]:
        lines += wrapped(part, 52)
    return Mark(report, "bytes", node.number, stream.node(other(side)), lines, faint=not carried)


def side_mark(report, kind, why):
    words = " ".join(report.words)
    lines = [f"{report.kind} {words} = {report.answer[0]}"]
    return Mark(report, kind, 0, 0, lines + wrapped(f"({why})", 30), faint=True)


def node_mark(network, report):
    node = network.nodes[report.node]
    answer = " ".join(short(word) for word in report.answer)
    if report.kind == "clock":
        node.reading = max(node.reading, int(report.answer[0]))
        return Mark(report, "clock", report.node, 0, [f"node {report.node}: {answer} ms"])
    if report.kind == "drain":
        under = network.drain(node, int(report.answer[1]))
        return Mark(report, "drain", report.node, 0, [f"drain {report.words[1]} = {answer}"], under)
    if report.kind == "want":
        length, longest, peer = report.words[1:]
        return Mark(report, "want", report.node, 0, wrapped(f"want {length} {longest} from {peer} = {answer}"))
    if report.kind == "return":
        prefix, peer = report.words[1:]
        return Mark(report, "return", report.node, 0, wrapped(f"return {short(prefix)} to {peer} = {answer}"))
    if report.kind == "ask":
        prefix, peer = report.words[1:]
        return Mark(report, "ask", report.node, 0, wrapped(f"ask {peer} about {short(prefix)} = {answer}"))
    if report.kind == "crash":
        network.restart(report.node)
        calls, left = report.words[1:]
        return Mark(report, "crash", report.node, 0, wrapped(f"crash behind {calls} calls of the disk, {left} = {answer}"))
    return Mark(report, "state", report.node, 0, wrapped(f"state: {answer}"))


def short(word):
    """A word as it is drawn: the address of node K as @K, and long values without their ends."""
    found = NODE_ADDRESS.fullmatch(word)
    if found and 1 <= int(found.group(1), 16) <= 64:
        return f"@{int(found.group(1), 16)}"
    prefix = re.fullmatch("([0-9a-f]{32})/([0-9]+)", word)
    if prefix:
        digits = prefix.group(1).rstrip("0")
        return f"{digits + '0' * (len(digits) % 2)}../{prefix.group(2)}"
    if len(word) <= 27:
        return word
    if not word.startswith("x"):
        return word[:26] + ".."
    digits = word[:27].rstrip("0")
    return digits + "0" * (1 - len(digits) % 2) + ".."


def shortened(words):
    return " ".join(short(word) for word in words.split(" "))


def wrapped(text, width=40):
    """Lines of words, none longer than the width unless one word is."""
    lines = [""]
    for word in text.split(" "):
        if lines[-1] and len(lines[-1]) + 1 + len(word) > width:
            lines.append("  " + word)
        else:
            lines[-1] = f"{lines[-1]} {word}" if lines[-1] else word
    return lines


# ---- Which of it is drawn.


def is_quiet(mark):
    """Whether it tells nothing: a call that is to be made again."""
    return mark.kind == "call" and mark.report.answer == ["notyet"] and not mark.under and not mark.report.hold


def folded(marks):
    """Runs of calls that tell nothing as one mark each."""
    out, run = [], []
    for mark in marks + [None]:
        if mark is not None and is_quiet(mark):
            run.append(mark)
            continue
        if len(run) < QUIET:
            out += run
        else:
            nodes = sorted({quiet.at for quiet in run})
            words = f"{len(run)} calls of node{'s' * (len(nodes) > 1)} {', '.join(str(node) for node in nodes)}: notyet"
            lines = f"lines {run[0].report.line} to {run[-1].report.line}"
            out.append(Mark(run[0].report, "quiet", run[0].at if len(nodes) == 1 else 0, 0, wrapped(words) + [lines], faint=True))
        run = []
        if mark is not None:
            out.append(mark)
    return out


def chosen_marks(marks, lines, nodes):
    """The marks of these lines that have to do with these nodes."""
    return [mark for mark in marks if (lines is None or lines[0] <= mark.report.line <= lines[1])
            and (nodes is None or mark.at in nodes or mark.start in nodes)]


def left_over(network):
    """What was sent and never delivered, in words."""
    lines = []
    for datagram in network.datagrams:
        if not datagram.deliveries:
            lines.append(f"datagram {datagram.number} from {datagram.sender} to {datagram.receiver}")
    for stream in network.streams:
        if not stream.arrived:
            lines.append(f"stream {stream.number} from {stream.near} to {stream.far}")
            continue
        for side in ("near", "far"):
            lines += [f"stream {stream.number}, to {stream.node(side)}: {shortened(part.words)}"
                      for part in stream.undelivered(side)]
    return lines


# ---- The picture.

CHARACTER = 6.7     # the width of a character of the font, in pixels
HEAD = 8.0          # the width of a character of a head
LINE = 14           # the height of a line of text
SIDE = 44           # where readings, and what has no lifeline, stand at the left
STYLE = """text{font:11px monospace;fill:#1a1a1a;paint-order:stroke;stroke:#fff;stroke-width:2px}
.head{font-weight:bold;font-size:13px}.title{font:bold 16px sans-serif}
.number,.faint text,.under{fill:#707070}.life{stroke:#9a9a9a}.box{fill:#fff;stroke:#5a5a5a}.faint .box{stroke:#b0b0b0}
.state .box,.want .box,.return .box,.ask .box{fill:#eef4ea}.crash .box{fill:#fbeaea;stroke:#b00020}.call .box{fill:#f2f5fb}.drain .box{fill:#f6f6f6}
.shaft{stroke:#1a1a1a;stroke-width:1.3;fill:none}.datagram .shaft,.datagram .tip{stroke:#8a4b00}.datagram .tip{fill:#8a4b00}
.arrival .shaft{stroke-dasharray:6 4}.bytes .shaft,.bytes .tip{stroke:#0b4f9c}.bytes .tip{fill:#0b4f9c}
.faint .shaft{stroke-dasharray:2 3}.cross{stroke:#b00020;stroke-width:2.5}.tick{stroke:#9a9a9a;stroke-dasharray:1 4}"""


def width_of(lines):
    return max((len(line) for line in lines), default=0) * CHARACTER


def on_side(mark):
    """Whether its words stand at the left."""
    return mark.kind == "clock" or not mark.at


def places_of(nodes, marks, heads=None):
    """The place of each lifeline from the left, with room for heads, for notes and for the words at arrows."""
    half = {node: 60.0 if heads is None else max(60.0, len(heads[node]) * HEAD / 2 + 12) for node in nodes}
    order = {node: at for at, node in enumerate(nodes)}
    for mark in marks:
        if mark.at and not mark.start and not on_side(mark):
            half[mark.at] = max(half[mark.at], width_of(mark.lines + mark.under) / 2 + 12)
    at = {nodes[0]: SIDE + half[nodes[0]] + width_of([part for mark in marks if on_side(mark) for part in mark.lines])}
    for before, node in zip(nodes, nodes[1:]):
        at[node] = at[before] + half[before] + half[node]
    spans = sorted({(abs(order[mark.at] - order[mark.start]), min(order[mark.at], order[mark.start]), width_of(mark.lines)) for mark in marks
                    if mark.at and mark.start and mark.at != mark.start})
    for span, first, width in spans:
        missing = width + 40 - (at[nodes[first + span]] - at[nodes[first]])
        for node in nodes[first + span:] if missing > 0 else ():
            at[node] += missing
    last = nodes[-1]
    loops = [width_of(mark.lines) for mark in marks if mark.at == mark.start == last and mark.at]
    return at, at[last] + max([half[last]] + [width + 50 for width in loops])


def height_of(mark):
    if mark.kind == "clock":
        return LINE + 8
    if mark.start:
        return LINE * (len(mark.lines) + len(mark.under)) + 18
    return LINE * (len(mark.lines) + len(mark.under)) + 14


def number(value):
    return f"{value:.1f}".rstrip("0").rstrip(".")


def text(x, y, words, anchor="start", of=""):
    kind = f' class="{of}"' if of else ""
    return f'<text x="{number(x)}" y="{number(y)}" text-anchor="{anchor}"{kind} xml:space="preserve">{escape(words)}</text>'


def texts(x, y, lines, anchor="start", of=""):
    return [text(x, y + LINE * i, line, anchor, of) for i, line in enumerate(lines)]


def line(x1, y1, x2, y2, of):
    return f'<line class="{of}" x1="{number(x1)}" y1="{number(y1)}" x2="{number(x2)}" y2="{number(y2)}"/>'


def cross(x, y):
    return [line(x - 7, y - 7, x + 7, y + 7, "cross"), line(x - 7, y + 7, x + 7, y - 7, "cross")]


def draw_note(mark, y, at):
    """A box at a lifeline, and under its words in grey what was sent."""
    lines = mark.lines + mark.under
    width = width_of(lines) + 14
    x, left = at[mark.at], at[mark.at] - width / 2
    out = [f'<rect class="box" x="{number(left)}" y="{number(y + 2)}" width="{number(width)}"'
           f' height="{number(LINE * len(lines) + 8)}" rx="3"/>']
    out += texts(x, y + 15, mark.lines, "middle")
    return out + texts(x, y + 15 + LINE * len(mark.lines), mark.under, "middle", "under")


def draw_arrow(mark, y, at):
    """An arrow with its words above it, and below its end in grey what it made the node send."""
    x1, x2, low = at[mark.start], at[mark.at], y + LINE * len(mark.lines) + 6
    if mark.start == mark.at:
        out = [f'<path class="shaft" d="M{number(x1)} {number(low - 10)} h30 v10 h-24"/>', tip(x1, low, -1)]
        return out + texts(x1 + 36, y + 10, mark.lines) + texts(x1 + 8, low + 12, mark.under, "start", "under")
    toward = 1 if x2 > x1 else -1
    out = [line(x1, low, x2 - 2 * toward, low, "shaft"), tip(x2, low, toward)]
    out += texts((x1 + x2) / 2, y + 11, mark.lines, "middle")
    if mark.crossed:
        out += cross(x2, low)
    return out + texts(x2 - 8 * toward, low + 13, mark.under, "end" if toward > 0 else "start", "under")


def tip(x, y, toward):
    back = x - 9 * toward
    return f'<path class="tip" d="M{number(x)} {number(y)} L{number(back)} {number(y - 4)} L{number(back)} {number(y + 4)} Z"/>'


def draw_mark(mark, y, at):
    if mark.start:
        inner = draw_arrow(mark, y, at)
    elif mark.kind == "cut":
        inner = cross(at[mark.at], y + 12) + texts(at[mark.at] + 12, y + 16, mark.lines)
        inner += texts(at[mark.at] + 12, y + 16 + LINE * len(mark.lines), mark.under, "start", "under")
    elif mark.kind == "clock":
        inner = [line(SIDE + width_of(mark.lines) + 6, y + 10, at[mark.at], y + 10, "tick"),
                 f'<circle cx="{number(at[mark.at])}" cy="{number(y + 10)}" r="3"/>']
        inner += texts(SIDE, y + 14, mark.lines)
    elif mark.at:
        inner = draw_note(mark, y, at)
    else:
        inner = texts(SIDE, y + 14, mark.lines)
    inner.append(text(36, y + 14, str(mark.report.line), "end", "number"))
    ends = f' data-from="{mark.start}"' if mark.start else ""
    ends += f' data-to="{mark.at}"' if mark.start else f' data-node="{mark.at}"' if mark.at else ""
    faint = " faint" if mark.faint else ""
    words = quoteattr(" | ".join(part.strip() for part in mark.lines + mark.under))
    return [f'<g class="{mark.kind}{faint}" data-line="{mark.report.line}"{ends} data-words={words}>',
            f"<title>{escape(mark.report.text)}</title>"] + inner + ["</g>"]


def heads(at, y):
    out = []
    for node, x in at.items():
        out.append(f'<rect class="box" x="{number(x - 40)}" y="{number(y)}" width="80" height="24" rx="3"/>')
        out.append(text(x, y + 17, f"node {node}", "middle", "head"))
    return out


HEADS = 1400        # behind so many pixels the heads of the lifelines stand again


def placed(marks):
    """Each mark with its height from the top, the heights of the heads between them, and where the lifelines end."""
    rows, repeated, y, last = [], [], 84.0, 44.0
    for mark in marks:
        if y - last > HEADS:
            repeated.append(y + 4)
            last, y = y, y + 36
        rows.append((mark, y))
        y += height_of(mark)
    return rows, repeated, y + 8


def draw(title, nodes, marks, over):
    """The whole picture."""
    at, right = places_of(nodes, marks)
    rows, repeated, foot = placed(marks)
    below = ["Sent and not delivered:"] + ["  " + words for words in over] if over else []
    width = max(right + 20, 40 + len(title) * 10, 40 + width_of(below))
    height = foot + 40 + LINE * len(below) + (10 if below else 0)
    out = [f'<svg xmlns="http://www.w3.org/2000/svg" role="img" width="{number(width)}" height="{number(height)}"'
           f' viewBox="0 0 {number(width)} {number(height)}">',
           f"<title>{escape(title)}</title>",
           f"<desc>{len(nodes)} nodes, {len(marks)} lines. Each node has a lifeline; time goes downwards.</desc>",
           f"<style>{STYLE}</style>", '<rect width="100%" height="100%" fill="#fff"/>',
           text(20, 28, title, "start", "title")]
    out += [line(x, 68, x, foot, "life") for x in at.values()]
    for y in [44, *repeated, foot]:
        out += heads(at, y)
    for mark, y in rows:
        out += draw_mark(mark, y, at)
    out += texts(20, foot + 46, below)
    return "\n".join(out + ["</svg>"]) + "\n"


@dataclass
class Choice:
    """What is drawn: the first and the last line, the nodes, and whether calls that tell nothing are drawn one by one."""
    lines: tuple = None
    nodes: list = None
    all: bool = False


def drawn_nodes(count, marks, choice):
    """The nodes that have a lifeline: all of them, or the chosen ones and those that their arrows lead to."""
    if choice.nodes is None:
        return list(range(1, count + 1))
    if max(choice.nodes) > count:
        raise Refused(f"there is no node {max(choice.nodes)}")
    return sorted(set(choice.nodes) | {end for mark in marks for end in (mark.at, mark.start) if end})


def chart(octets, script=None, title=None, choice=None):
    """The chart of these report lines, as SVG."""
    choice = choice or Choice()
    count, links, reports = read_all(octets, script)
    network = Network(count, links)
    if any(report.kind in ("doubter", "ask") for report in reports):
        network.add_doubters()
    marks = chosen_marks(marks_of(network, reports), choice.lines, choice.nodes)
    nodes = drawn_nodes(count, marks, choice)
    over = left_over(network) if choice.lines is None and choice.nodes is None else []
    return draw(title or f"Replay of {count} node{'s' * (count > 1)}", nodes, marks if choice.all else folded(marks), over)


# ---- A trace of running nodes.

TIME = 12 * CHARACTER + 16      # the width of the times
TRACE_STYLE = STYLE + """
.opening .shaft{stroke-dasharray:6 4}.message .shaft,.message .tip{stroke:#0b4f9c}.message .tip{fill:#0b4f9c}
.closing .shaft{stroke-dasharray:2 3;stroke:#b00020}.closing .tip{fill:#b00020}.event .box{fill:#eef4ea}.peer .box{stroke-dasharray:3 3}"""


def shortened_words(words):
    return " ".join(short(word) if word[0] in "x'" else word for word in shown_words(words))


def trace_label(line):
    """The words at an arrow, or in the box of an event."""
    there = f" (there {line.pair.stream})" if line.pair and line.stream is not None else ""
    if line.kind == "dial":
        came = f", opening {line.pair.stream} from {readable_address(line.pair.words)}" if line.pair else ""
        words = f"dial {line.stream} {shown_locator(line.words)}{came}"
    elif line.kind == "opening":
        words = f"opening {line.stream} from {readable_address(line.words)}"
    elif line.kind == "closing":
        words = f"closing {line.stream}{there}"
    elif line.kind == "message":
        words = f"stream {line.stream}{there}: {shortened_words(line.words)}"
    else:
        words = shortened_words(line.words)
    return wrapped(words if line.word not in ("lost", "failed") else f"{line.word}: {words}", 52)


def trace_mark(story, line):
    """What is drawn for a line. A line that came from another one has none: the arrow of that one ends at it."""
    if line.kind == "event":
        return Mark(line, "event", line.node, "", trace_label(line))
    if line.comes and line.pair:
        return None
    kind = "opening" if line.kind == "dial" else line.kind
    far = line.pair.node if line.pair else story.other_end(line)
    start, end = (far, line.node) if line.comes else (line.node, far)
    bad = line.word in ("lost", "failed")
    return Mark(line, kind, end, start, trace_label(line), faint=bad or not line.pair and far in story.nodes, crossed=bad)


def named_lifelines(story, names):
    """The lifelines that these words name: as in the lines, or as at their heads."""
    out = set()
    for name in names:
        found = [key for key, head in story.names.items() if name in (key, head)]
        if not found:
            raise Refused(f"there is no node {name}")
        out.update(found)
    return out


def trace_rows(lines, marks):
    """The rows of these marks in order: a line, and its mark where it has one."""
    of_line = {mark.report: mark for mark in marks}
    used = set(of_line) | {mark.report.pair for mark in marks}
    return [(line, of_line.get(line)) for line in lines if line in used]


def trace_placed(rows):
    """The height of each line from the top, the days that begin, the heights of heads between them, and where the lifelines end."""
    heights, days, repeated, y, last, day = {}, [], [], 84.0, 44.0, ""
    for line, mark in rows:
        if y - last > HEADS:
            repeated.append(y + 4)
            last, y = y, y + 36
        if line.stamp[:10] != day:
            day = line.stamp[:10]
            days.append((day, y))
            y += LINE + 4
        heights[line] = y
        y += height_of(mark) if mark else LINE + 6
    return heights, days, repeated, y + 8


def sloping_arrow(mark, x1, y1, x2, y2):
    """The shaft and the tip of an arrow, and a cross where it didn't arrive."""
    if x1 == x2:
        return [f'<path class="shaft" d="M{number(x1)} {number(y1)} h30 V{number(y2 + 10)} h-24"/>', tip(x1, y2 + 10, -1)]
    far = ((x2 - x1) ** 2 + (y2 - y1) ** 2) ** 0.5
    dx, dy = (x2 - x1) / far, (y2 - y1) / far
    corners = [(x2, y2), (x2 - 9 * dx + 4 * dy, y2 - 9 * dy - 4 * dx), (x2 - 9 * dx - 4 * dy, y2 - 9 * dy + 4 * dx)]
    path = " L".join(f"{number(x)} {number(y)}" for x, y in corners)
    out = [line(x1, y1, x2 - 2 * dx, y2 - 2 * dy, "shaft"), f'<path class="tip" d="M{path} Z"/>']
    return out + (cross(x2, y2) if mark.crossed else [])


def draw_traced(mark, heights, at):
    """A mark of a trace. Its line stands in data-line, and that of the other node in data-end."""
    told, y = mark.report, heights[mark.report]
    if mark.start:
        low = y + LINE * len(mark.lines) + 6
        end = heights[told.pair] + 12 if told.pair else low
        inner = sloping_arrow(mark, at[mark.start], low, at[mark.at], end)
        loop = mark.start == mark.at
        inner += texts(at[mark.at] + 36 if loop else (at[mark.start] + at[mark.at]) / 2, y + 11, mark.lines, "start" if loop else "middle")
        ends = f" data-from={quoteattr(mark.start)} data-to={quoteattr(mark.at)}"
        ends += f' data-end="{told.pair.line}"' if told.pair else ""
    else:
        inner, ends = draw_note(mark, y, at), f" data-node={quoteattr(mark.at)}"
    words = quoteattr(" | ".join(part.strip() for part in mark.lines))
    title = told.text + (f"\n{told.pair.text}" if told.pair else "")
    return [f'<g class="{mark.kind}{" faint" if mark.faint else ""}" data-line="{told.line}"{ends} data-words={words}>',
            f"<title>{escape(title)}</title>"] + inner + ["</g>"]


def trace_heads(story, at, y):
    out = []
    for key, x in at.items():
        head = story.names[key]
        width = max(80.0, len(head) * HEAD + 16)
        out += ["<g>" if key in story.nodes else '<g class="peer">',
                f'<rect class="box" x="{number(x - width / 2)}" y="{number(y)}" width="{number(width)}" height="24" rx="3"/>',
                text(x, y + 17, head, "middle", "head"), "</g>"]
    return out


def draw_trace(title, story, lifelines, rows):
    """The whole picture of a trace."""
    marks = [mark for _, mark in rows if mark]
    digits = max((len(str(row.line)) for row, _ in rows), default=1) * CHARACTER + 12
    at, right = places_of(lifelines, marks, story.names)
    at = {key: x + TIME + digits - SIDE for key, x in at.items()}
    heights, days, repeated, foot = trace_placed(rows)
    width = max(right + TIME + digits - SIDE + 20, 40 + len(title) * 10)
    height = foot + 40
    out = [f'<svg xmlns="http://www.w3.org/2000/svg" role="img" width="{number(width)}" height="{number(height)}"'
           f' viewBox="0 0 {number(width)} {number(height)}">',
           f"<title>{escape(title)}</title>",
           f"<desc>{len(lifelines)} lifelines, {len(rows)} lines. Time goes downwards.</desc>",
           f"<style>{TRACE_STYLE}</style>", '<rect width="100%" height="100%" fill="#fff"/>',
           text(20, 28, title, "start", "title")]
    out += [line(x, 68, x, foot, "life") for x in at.values()]
    for y in [44, *repeated, foot]:
        out += trace_heads(story, at, y)
    out += [text(digits, y + 12, day, "start", "number") for day, y in days]
    for row, mark in rows:
        low = heights[row] + 14
        out += [text(digits - 8, low, str(row.line), "end", "number"), text(digits, low, row.stamp[11:-1], "start", "number")]
    for mark in marks:
        out += draw_traced(mark, heights, at)
    return "\n".join(out + ["</svg>"]) + "\n"


def trace_chart(files, title=None, lines=None, names=None):
    """The chart of these traces, as SVG: of each its name and its content."""
    story = Story(read_traces(files))
    ordered = story.ordered()
    marks = [mark for mark in (trace_mark(story, told) for told in ordered) if mark]
    nodes = len(story.nodes)
    if lines is not None:
        marks = [mark for mark in marks if any(lines[0] <= told.line <= lines[1] for told in (mark.report, mark.report.pair) if told)]
    lifelines = list(story.names)
    if names is not None:
        chosen = named_lifelines(story, names)
        marks = [mark for mark in marks if mark.at in chosen or mark.start in chosen]
        ends = chosen | {end for mark in marks for end in (mark.at, mark.start) if end}
        lifelines = [key for key in lifelines if key in ends]
    return draw_trace(title or f"Trace of {nodes} node{'s' * (nodes > 1)}", story, lifelines, trace_rows(ordered, marks))


# ---- Words of the command line.


@dataclass
class Words:
    script: str = None
    title: str = None
    choice: Choice = field(default_factory=Choice)
    files: list = field(default_factory=list)
    names: list = None      # the words of --nodes


def lines_chosen(word):
    found = re.fullmatch("([1-9][0-9]{0,8})-([1-9][0-9]{0,8})?", word)
    return (int(found.group(1)), int(found.group(2) or 999_999_999)) if found else None


def nodes_chosen(word):
    found = re.fullmatch("[1-9][0-9]?(,[1-9][0-9]?)*", word)
    return sorted({int(part) for part in word.split(",")}) if found else None


def names_chosen(word):
    return word.split(",") if all(word.split(",")) else None


def words_of(words):
    """What the words ask for, or None where they are wrong."""
    out, seen, words = Words(), set(), list(words)
    while words:
        word = words.pop(0)
        if word in seen:
            return None
        if word in ("--script", "--title", "--lines", "--nodes"):
            seen.add(word)
            if not words:
                return None
            value = words.pop(0)
            if word == "--script":
                out.script = value
            elif word == "--title":
                out.title = value
            elif word == "--lines":
                out.choice.lines = lines_chosen(value)
            else:
                out.choice.nodes, out.names = nodes_chosen(value), names_chosen(value)
            if word == "--lines" and out.choice.lines is None or word == "--nodes" and out.names is None:
                return None
        elif word == "--all":
            seen.add(word)
            out.choice.all = True
        elif (word == "-" or not word.startswith("-")) and word not in out.files:
            out.files.append(word)
        else:
            return None
    return out


def script_beside(file):
    """The script of NAME.reports, where it stands beside it."""
    path = pathlib.Path(file)
    beside = path.with_suffix(".script")
    return str(beside) if path.suffix == ".reports" and beside.is_file() else None


def content_of(file):
    return sys.stdin.buffer.read() if file == "-" else pathlib.Path(file).read_bytes()


def picture_of(words):
    """The chart that the words ask for."""
    files = [(file, content_of(file)) for file in words.files or ["-"]]
    name, octets = files[0]
    if is_trace(octets) or len(files) > 1:
        if words.script:
            raise Refused("a trace has no script")
        return trace_chart(files, words.title, words.choice.lines, words.names)
    if words.names and not words.choice.nodes:
        raise Refused(f"there is no node {','.join(words.names)}")
    script = words.script or script_beside(name)
    head = pathlib.Path(script).read_bytes() if script else None
    return chart(octets, head, words.title, words.choice)


def main(words):
    if words in (["--help"], ["-h"]):
        print(__doc__.strip())
        return 0
    if words == ["--version"]:
        print(VERSION)
        return 0
    chosen = words_of(words)
    if chosen is None:
        print("usage: chart.py [--script SCRIPT] [--title TITLE] [--lines A-B] [--nodes A,B..] [--all] [REPORTS | TRACE..]; try --help", file=sys.stderr)
        return 2
    try:
        picture = picture_of(chosen)
    except Refused as why:
        print(f"chart.py: {why}", file=sys.stderr)
        return 1
    except OSError as why:
        print(f"chart.py: {why.filename}: {why.strerror}", file=sys.stderr)
        return 1
    try:
        sys.stdout.write(picture)
        sys.stdout.flush()
    except OSError as why:
        print(f"chart.py: standard output: {why.strerror}", file=sys.stderr)
        os.dup2(os.open(os.devnull, os.O_WRONLY), 1)
        return 1
    return 0


if __name__ == "__main__":
    sys.exit(main(sys.argv[1:]))
