"""Draws a play as a picture, SVG on standard output.

TRACE is a trace as text, OUTPUT what `run` or `threads` has printed for it; `-` is standard input. Time goes to the right, in
bands one below the other. Above are the processors: a box is a processor inside, with its call at the entry and, below it, its
answer at the exit; the small numbers are the places of both in the core's one history. Below are the slots: a bar is a call,
dark while a processor works on it and light while it is suspended; it is striped while it sleeps until its instance is free.
Requests and results have names where the trace shows their bytes, and ERESUME its cause. Over a box or a bar a viewer shows the call's
function, client, thread and session; a bar has them where there is room.

A trace with signals, a script of a client (of which client_trace.py writes a trace) or for lift.py, a play that was refused, and one without a
call aren't drawn.

--perfetto FILE writes, in the place of the picture, the same as events for the viewers of Chrome (chrome://tracing) and Perfetto
(ui.perfetto.dev): processors and slots are their threads, and a place in the history is a microsecond.

Without OUTPUT the program plays the trace, and lines `show` are put behind its calls, so that each request and result has its
name. The program is FILE, the one that TULGEXAR_RUN names, or what `rt run` has built in crates/optee_run.
Status: 0, 1 where the output isn't that of the trace, or nothing can be drawn; 2 at other words.
usage: chart.py [program=FILE] [--perfetto FILE] TRACE [OUTPUT]
"""

import collections
import html
import json
import re
import sys

from tulgexar import calls, description, formats, plays, program, story
from tulgexar.words import BadWords, behind, plain, refuse_options, run, text_of, write_text

MOST_THREADS = description.MOST["threads"]
LEFT, INSIDE, OUTSIDE, BAND = 76, 96, 16, 980
LANE, SLOT, TITLE, GAP = 74, 22, 16, 22
COLORS = {
    "inside": "#3b6ea5",
    "suspended": "#c9d9ea",
    "wait": "#e8b04a",
    "box": "#eef3f8",
    "line": "#7a8794",
    "text": "#1d2733",
}
PATTERN = f"""<defs><pattern id="waits" width="6" height="6" patternUnits="userSpaceOnUse" patternTransform="rotate(45)">
<rect width="6" height="6" fill="{COLORS['suspended']}"/><rect width="3" height="6" fill="{COLORS['wait']}"/>
</pattern></defs>"""

HALO = ' stroke="#ffffff" stroke-width="3" stroke-linejoin="round" paint-order="stroke"'

# Places first to last of the history, and the x of each.
Band = collections.namedtuple("Band", "first last xs")


def bands_of(told):
    """The bands in which the places are drawn. One ends behind an exit, where no processor is inside, if that comes soon."""
    is_entry = {visit.entry: True for visit in told.visits} | {visit.exit: False for visit in told.visits}
    bands, first, xs, inside = [], 0, {}, 0
    for place in range(told.length):
        before = xs.get(place - 1)
        xs[place] = LEFT + OUTSIDE if before is None else before + (INSIDE if is_entry[place - 1] else OUTSIDE)
        inside += 1 if is_entry[place] else -1
        is_full = xs[place] + OUTSIDE + INSIDE > (BAND if inside == 0 else 3 * BAND // 2)
        if place == told.length - 1 or not is_entry[place] and is_full:
            bands.append(Band(first, place, xs))
            first, xs = place + 1, {}
    return bands


def text(x, y, words, size=10, color="text", anchor="start", more=""):
    where = f'x="{x}" y="{y}" font-size="{size}" fill="{COLORS[color]}" text-anchor="{anchor}"{more}'
    return f"<text {where}>{html.escape(words)}</text>"


def title(words):
    """Words that viewers show where the pointer is over a group."""
    return f"<title>{html.escape(words)}</title>"


def box(x, y, width, height, fill, stroke="line"):
    return f'<rect x="{x}" y="{y}" width="{width}" height="{height}" rx="2" fill="{fill}" stroke="{COLORS[stroke]}"/>'


def lines_of(words, most=15):
    """Words in lines that fit into a box, broken at blanks and behind `_`."""
    lines = [""]
    for part in words.replace(" ", " \0").replace("_", "_\0").split("\0"):
        if len(lines[-1]) + len(part.rstrip()) > most and lines[-1]:
            lines.append("")
        lines[-1] += part
    return [line.rstrip() for line in lines if line.strip()]


def clipped(band, first, last):
    """The x of the part of an interval that lies in a band, or None; past the band it is open."""
    if last < band.first or first > band.last:
        return None
    return band.xs.get(first, LEFT), band.xs.get(last, max(band.xs.values()) + OUTSIDE)


def lane(band, y, cpu, told):
    """A processor's lane: its name, and a box for each time that it is inside."""
    right = max(band.xs.values()) + OUTSIDE
    drawn = [text(4, y + 26, f"processor {cpu}", 11), f'<path d="M{LEFT} {y + 38}H{right}" stroke="{COLORS["line"]}"/>']
    for visit in told.visits:
        part = clipped(band, visit.entry, visit.exit)
        if visit.cpu == cpu and part:
            drawn += visit_box(band, y, visit, *part)
    return drawn


def visit_box(band, y, visit, x, end):
    """A box with what the entry says; the answer below, and the places above both sides."""
    name, detail = visit.said
    told = f"{visit.called}: {visit.given}" + (f", {visit.why}" if visit.why else "")
    drawn = ["<g>", title(told), box(x, y + 10, end - x, 28, COLORS["box"])]
    for row, line in enumerate((lines_of(name) + lines_of(detail))[:2]):
        drawn.append(text(x + 3, y + 21 + 12 * row, line))
    for row, line in enumerate(lines_of(f"{visit.given} {calls.cause(visit.why)}".rstrip())[:2]):
        drawn.append(text(end - 2, y + 50 + 11 * row, line, 10, "inside", "end"))
    sides = [(visit.entry, x, "start"), (visit.exit, end, "end")]
    drawn += [text(at, y + 8, str(place), 8, "line", side) for place, at, side in sides if place in band.xs]
    return [*drawn, "</g>"]


def slot_row(band, y, slot, told):
    """A slot's row: a bar for each call that holds it."""
    drawn = [text(4, y + 14, f"slot {slot}", 11)]
    for call in told.calls:
        part = clipped(band, call.first, told.length if call.last is None else call.last)
        if call.slot == slot and part:
            drawn += call_bar(band, y, call, told, *part)
    return drawn


def call_bar(band, y, call, told, x, end):
    """A call: light where it is suspended, dark where a processor works on it, striped where it sleeps."""
    whole = f"{call.asked}, client {call.client}"
    drawn = ["<g>", title(f"thread {call.slot}: {whole}"), box(x, y + 2, end - x, SLOT - 6, COLORS["suspended"])]
    names = [(x + 4, whole if 5 * len(whole) + 8 < end - x else " ".join(call.text).strip(), True)]
    for first, last in sleeps_of(call, told):
        part = clipped(band, first, last)
        if part:
            drawn.append(box(part[0], y + 2, part[1] - part[0], SLOT - 6, "url(#waits)"))
            names.append((part[0] + 4, f"for the instance of {call.text[1]}", part[1] - part[0] > 160))
    for visit in call.visits:
        part = clipped(band, visit.entry, visit.exit)
        if part:
            drawn.append(box(part[0], y + 2, part[1] - part[0], SLOT - 6, COLORS["inside"]))
    return [*drawn, *(text(at, y + 13, words, more=HALO) for at, words, fits in names if fits), "</g>"]


def sleeps_of(call, told):
    """The intervals from an exit that asks to sleep to the next entry of the call."""
    for before, after in zip(call.visits, call.visits[1:] + [None]):
        if before.given.startswith("CMD Sleep"):
            yield before.exit, after.entry if after else told.length


def legend(y):
    """What the bars' colours say."""
    drawn, x = [], LEFT
    for fill, words in [
        (COLORS["inside"], "a processor works on the call"),
        (COLORS["suspended"], "suspended"),
        ("url(#waits)", "sleeps until its instance is free"),
    ]:
        drawn += [box(x, y, 18, 10, fill), text(x + 24, y + 9, words)]
        x += 40 + 6 * len(words)
    return drawn


def chart(told):
    """The picture of a story."""
    cpus = sorted({visit.cpu for visit in told.visits}, key=int)
    slots = range(max((call.slot for call in told.calls), default=-1) + 1)
    drawn, y, width = [], TITLE, LEFT
    for band in bands_of(told):
        for cpu in cpus:
            drawn += lane(band, y, cpu, told)
            y += LANE
        for slot in slots:
            drawn += slot_row(band, y, slot, told)
            y += SLOT
        width, y = max(width, max(band.xs.values()) + OUTSIDE), y + GAP
    drawn += legend(y)
    size = f'width="{max(width, 640)}" height="{y + 24}"'
    head = f'<svg xmlns="http://www.w3.org/2000/svg" {size} font-family="Helvetica, Arial, sans-serif">'
    return "\n".join([head, PATTERN, '<rect width="100%" height="100%" fill="#ffffff"/>', *drawn, "</svg>", ""])


def with_shows(trace, output):
    """The trace with lines `show` behind its calls: of a request where its buffer lies, and of a result in its argument."""
    told = story.Story(story.visits_of(trace, output), story.threads_of(trace))
    at_exit = {visit.line: shows_behind(visit, told) for visit in told.visits}
    lines = []
    for number, line in enumerate(trace.splitlines()):
        lines += [line, *at_exit.get(number, [])]
    return "".join(f"{line}\n" for line in lines)


def shows_behind(visit, told):
    """The lines that show what an exit has written."""
    at, length = None, 0
    if visit.answer == "CMD":
        at, length = visit.request_at, 64
    elif visit.answer == "OK" and visit.call:
        at, length = visit.call.visits[0].argument, formats.HEAD_BYTES
    return [f"show {visit.cpu} {at:x} {length}"] if at is not None and calls.is_in_ram(at, length) else []


def played(trace, runner):
    """A trace and its output, with lines `show` of its requests and results."""
    output = output_of(trace, runner)
    try:
        plays.lay_out(trace, output)
    except plays.Mismatch as mismatch:
        raise plays.Mismatch(f"{mismatch.cause}: {runner.file} isn't the program of crates/optee_run", mismatch.place) from mismatch
    shown = with_shows(trace, output)
    return shown, output_of(shown, runner)


def output_of(trace, runner):
    """What the program prints of a trace, which it plays to its end."""
    done = runner.run(["run"], trace)
    refuse_refused(done.output)
    if done.status:
        raise plays.Mismatch(program.wrong_end(runner.file, "optee_run", done.status))
    return done.output


def refuse_others(trace):
    """A Mismatch where an item of the trace is none that is drawn."""
    lines = list(enumerate(trace.splitlines(), 1))
    for place, line in lines:
        word = line.split(" ")[0]
        if word == "signal":
            raise plays.Mismatch("a trace with signals isn't drawn: it has no place for them", place)
        if word in plays.CLIENT_CALLS:
            raise plays.Mismatch("a client's script isn't drawn: client_trace.py writes a trace of its calls, which is", place)
    for place, line in lines:
        plays.refuse_script(place, line)


def refuse_none(trace):
    """A Mismatch where the trace has no call."""
    if not any(line.split(" ")[0] in ("smc", "enter") for line in trace.splitlines()):
        raise plays.Mismatch("there is no smc and no enter, so nothing is to be drawn")


def refuse_refused(output):
    """A Mismatch where a play was refused."""
    bad = re.fullmatch(r"bad trace (\d+) (\w+)\n", output)
    if bad:
        raise plays.Mismatch(f"the trace was refused, {bad[2]}: {plays.fault_of(bad[2])}", int(bad[1]))


PROCESSORS, SLOTS = 1, 2  # as processes of a viewer


def traced(told):
    """The story as JSON in the trace format of Chrome: complete events, whose times are places in the history."""
    rows = {(PROCESSORS, int(visit.cpu)) for visit in told.visits} | {(SLOTS, call.slot) for call in told.calls}
    events = [named("process_name", pid, 0, name) for pid, name in ((PROCESSORS, "processors"), (SLOTS, "slots"))]
    events += [named("thread_name", pid, row, f"{'processor' if pid == PROCESSORS else 'slot'} {row}") for pid, row in sorted(rows)]
    for visit in told.visits:
        client = visit.registers[7] if visit.is_new_call or visit.is_resume else None
        details = {"asked": visit.called, "client": client, "thread": visit.slot, "answer": visit.given, "cause": visit.why}
        details = {name: value for name, value in details.items() if value not in (None, "")}
        events.append(event(PROCESSORS, int(visit.cpu), visit.said, visit.entry, visit.exit, **details))
    for call in told.calls:
        last = told.length if call.last is None else call.last
        events.append(event(SLOTS, call.slot, call.text, call.first, last, asked=call.asked, client=call.client))
        events += [event(SLOTS, call.slot, ["sleeps"], first, last) for first, last in sleeps_of(call, told)]
    return json.dumps({"traceEvents": events}, indent=1) + "\n"


def event(group, row, words, first, last, **details):
    """An event from one place of the history to another."""
    return {"name": " ".join(words).strip(), "ph": "X", "pid": group, "tid": row, "ts": first, "dur": last - first, "args": details}


def named(kind, group, row, name):
    """The name of a process or of a thread in a viewer."""
    return {"name": kind, "ph": "M", "pid": group, "tid": row, "args": {"name": name}}


def main(words):
    words = list(words)
    file, viewed = program.taken_from(words), behind(words, "--perfetto")
    refuse_options(words, "--perfetto FILE, program=FILE")
    if not words and viewed:
        raise BadWords(f"no TRACE is left: {viewed} stands behind --perfetto, which takes the file to write")
    if len(words) not in (1, 2):
        raise BadWords()
    trace = text_of(words[0])
    try:
        refuse_others(trace)
        trace, output = (trace, text_of(words[1])) if len(words) == 2 else played(trace, program.Program(file))
        told = told_by(trace, output)
        if viewed:
            write_text(viewed, traced(told))
        else:
            print(chart(told), end="")
    except plays.Mismatch as mismatch:
        return refused(mismatch.of_file(words[0]))
    except (ValueError, IndexError, KeyError) as error:
        return refused(error)
    return 0


def told_by(trace, output):
    """The story of a trace and its output."""
    plays.refuse_swapped(trace, output)
    refuse_refused(output)
    refuse_none(trace)
    plays.lay_out(trace, output)
    threads = story.threads_of(trace)
    told = story.Story(story.visits_of(trace, output), threads)
    refuse_thread(told, min(threads or MOST_THREADS, MOST_THREADS))
    return told


def refuse_thread(told, count):
    """A Mismatch where a call is in a thread that the core hasn't."""
    beyond = [call.slot for call in told.calls if call.slot >= count]
    if beyond:
        raise plays.Mismatch(f"the output names thread {beyond[0]}, and there are {count}")


def refused(error):
    """Tells why nothing is drawn. The status."""
    print(f"chart.py: {plain(str(error))}", file=sys.stderr)
    return 1


if __name__ == "__main__":
    run(main, __doc__)
