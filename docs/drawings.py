#!/usr/bin/env python3
"""Draws the documents' pictures, layers.svg, session.svg and stop.svg, from the tables ROWS, SESSION and STOP.

The layers have all crates of crates.txt but those for tests and for measuring. Where one is missing, or stands beside
or below a crate that it uses, this says so in one line, and draws nothing.

usage: docs/drawings.py
"""
import os
import sys
from xml.sax.saxutils import escape

sys.path.insert(0, os.path.join(os.path.dirname(os.path.dirname(os.path.abspath(__file__))), "examples"))

from crate_list import listed_crates

WIDTH, HEIGHT, GAP = 1060, 46, 10
LEFT, RIGHT = 150, 910
PROVED, MODEL, EDGE, OUTSIDE = "#dceafa", "#e3f1dc", "#fbe3c8", "#ffffff"

# A row is a list of boxes, each the share of the row's width, its colour, its name, and what it does. Each crate stands
# on crates in the rows below its own.
ROWS = [
    [(1, PROVED, "bridge_cmd", "the program, over what the edge gives")],
    [(1, PROVED, "bridge_runs", "a run: words in, a line and a status out"),
     (0.5, MODEL, "legal_logs", "which logs are legal"),
     (0.5, MODEL, "clean_sessions", "where nothing goes wrong")],
    [(1, PROVED, "run_outcomes", "lines and statuses"), (1, PROVED, "file_wires", "wires over a file"),
     (0.9, PROVED, "recorded_sessions", "sessions, recorded"), (0.9, PROVED, "thread_dump", "all stacks"),
     (1, PROVED, "printed_scripts", "scripts as text"), (1, MODEL, "script_courses", "a script's one course"),
     (1.4, MODEL, "scripted_joints", "a scripted target obeys JDWP")],
    [(0.4, PROVED, "bridge_serve", "a session over wires"), (0.2, PROVED, "command_words", "what words ask for"),
     (0.2, PROVED, "script_files", "texts of scripts"), (0.2, PROVED, "script_wires", "wires over a script"),
     (0.22, PROVED, "generated_scripts", "a script from a number")],
    [(0.4, PROVED, "bridge_core", "a session over whole messages"), (0.2, PROVED, "printed_rows", "lines, as text"),
     (0.2, PROVED, "target_scripts", "scripts, row by row"), (0.2, PROVED, "target_server", "a scripted target")],
    [(0.5, PROVED, "talk_plans", "what is done for a request"), (0.25, PROVED, "script_rows", "lines of scripts"),
     (0.25, PROVED, "script_worlds", "worlds of scripts"), (0.25, MODEL, "joint_facts", "facts are the world's"),
     (0.25, MODEL, "judged_worlds", "what hits come to")],
    [(1, PROVED, "talk_bodies", "what is told"), (1, PROVED, "talk_look_ups", "threads, frames, classes"),
     (0.9, MODEL, "session_causes", "the first cause"), (0.8, MODEL, "summary_laws", "what a summary is of"),
      (0.8, MODEL, "shown_worlds", "what a world shows"), (0.8, MODEL, "edge_examples", "edges, by example"),
      (0.8, MODEL, "joint_examples", "its choices")],
    [(1, PROVED, "talk_rows", "the parts of a request"), (0.9, PROVED, "talk_events", "stops and news"),
     (0.8, PROVED, "hit_values", "hits, judged"),
     (1.1, PROVED, "message_bodies", "bodies judged and spelled"), (1, MODEL, "session_laws", "laws of sessions"),
     (1, MODEL, "joint_model", "beside an obeying target"), (0.9, MODEL, "dump_requests", "a dump, read"),
     (0.9, MODEL, "composite_laws", "each is dealt with"), (0.8, MODEL, "asking_laws", "why it is asked"),
     (0.8, PROVED, "tap_core", "a tap's machine")],
    [(0.9, PROVED, "talk_state", "what is known"), (1, PROVED, "child_pages", "pages of children"),
     (1.2, PROVED, "expression_values", "what expressions stand for"),
     (1, MODEL, "machine_laws", "what each run keeps"), (0.9, MODEL, "machine_work", "what is left to do"),
     (0.8, PROVED, "ask_texts", "texts for a tap"),
     (0.8, PROVED, "tap_window", "a tap's commands"), (0.8, PROVED, "tap_questions", "which are asked")],
    [(1, PROVED, "session_facts", "the parts of what is known"), (1, PROVED, "look_ups", "what is asked and heard"),
     (0.8, PROVED, "rule_tables", "rules in a table"),
     (1, MODEL, "machine_steps", "what each step keeps"), (0.8, MODEL, "lacking_laws", "what is lacking"), (1, MODEL, "session_model", "which bytes are a session"),
     (0.8, MODEL, "tap_model", "what a tap does")],
    [(1.1, MODEL, "machine_model", "what a session does"),
     (1, PROVED, "target_bodies", "answers, composites"),
     (1, PROVED, "world_model", "the world of a target"), (0.9, PROVED, "pending_table", "pending commands"),
     (0.9, MODEL, "body_faults", "the first wrong part"), (1, PROVED, "session_recorder", "wires that log"),
     (0.8, PROVED, "dump_wires", "wires of a dump")],
    [(1.2, PROVED, "jdwp_commands", "commands, and their answers"), (1, PROVED, "wish_sets", "event requests"),
     (1, PROVED, "suspend_ledger", "suspensions"), (1, PROVED, "session_endings", "endings, and limits"),
     (1, PROVED, "line_elements", "elements of lines"), (0.9, PROVED, "script_text", "texts of logs"),
      (0.9, MODEL, "told_values", "what is told, read"),
     (0.9, PROVED, "wire_journals", "logs of wires"), (0.9, PROVED, "dump_client", "a dump asks"),
     (0.8, MODEL, "request_laws", "a request, read")],
    [(1.15, PROVED, "jdwp_events", "events, and modifiers"), (0.95, PROVED, "class_tables", "facts of classes"),
     (1, PROVED, "stop_refs", "numbers of a stop"), (0.95, PROVED, "value_views", "texts of values"),
     (0.9, PROVED, "slot_values", "slots of frames"), (0.9, PROVED, "break_rules", "rules of hits"),
     (0.85, MODEL, "json_lines", "lines of JSON"),
      (1.1, PROVED, "session_summaries", "a log, summed up"), (0.9, PROVED, "request_frames", "a request's frame")],
    [(0.9, PROVED, "dap_frames", "frames"), (1.1, PROVED, "dap_messages", "messages"),
     (1.1, PROVED, "jdwp_packets", "packets"), (1, PROVED, "jdwp_values", "ids, values"),
     (0.9, PROVED, "field_exprs", "expressions"), (0.9, PROVED, "run_logs", "logs, as runs")],
    [(1, PROVED, "wire_core", "texts, lists, the outside as traits")],
    [(1, EDGE, "wire_edge", "TCP, disk, standard output: what the system did is trusted")],
]
LEGEND = [
    (PROVED, "proved code"), (MODEL, "definitions and laws"), (EDGE, "trusted edge"),
]

# A session's messages: the way of each (the editor's side has one sign, the Java machine's two), and what it says.
SESSION = [
    (">", "initialize"), ("<", "success, with the capabilities"),
    (">", "attach, with the roots of sources"), (">>", "JDWP-Handshake"), ("<<", "JDWP-Handshake"),
    (">>", "1: IDSizes"), ("<<", "1: 8, 8, 8, 8, 8"),
    (">>", "2: Set, thread starts"), ("<<", "2: request 2"), (">>", "3: Set, thread deaths"), ("<<", "3: request 3"),
    ("<", "success"), ("<", "initialized"),
    (">", "threads"), (">>", "4: AllThreads"), ("<<", "4: threads 1, 2"),
    (">>", "5: ThreadName of 1"), (">>", "6: ThreadName of 2"), ("<<", "5: main"), ("<<", "6: Finalizer"),
    ("<", "success: 1 main, 2 Finalizer"),
    (">", "disconnect"), (">>", "7: Dispose"), ("<<", "7: done"), ("<", "success"),
]

# The messages of one stop, likewise, of examples/shop/Orders.java at the line `total += cost`.
STOP = [
    ("<<", "all threads suspended: Breakpoint, main"), ("<", "stopped: breakpoint 1, thread 2"),
    (">", "stackTrace of thread 2"), (">>", "FrameCount of main"), ("<<", "3"), (">>", "Frames of main, 3 from 0 on"),
    ("<<", "3 frames, each with its location"), ("<", "success: 1 Order.total, 2 Orders.take, 3 Orders.main"),
    (">", "scopes of frame 1"), ("<", "success: Locals, under the number 4"),
    (">", "variables of 4"), (">>", "ThisObject of the frame"), (">>", "VariableTable of the method"),
    ("<<", "an object"), ("<<", "this, total, line, cost"), (">>", "GetSlots of the frame: total, line, cost"),
    ("<<", "0, an object, 10"), (">>", "ObjectType of this"), (">>", "ObjectType of line"), ("<<", "Order"),
    ("<<", "Line"), ("<", "success: this = Order@5, total = 0, line = Line@6, cost = 10"),
    (">", "setVariable of 4: cost to 1"), (">>", "ThisObject of the frame"), ("<<", "an object"),
    (">>", "SetSlot of the frame: cost to 1"), ("<<", "done"), ("<", "success: 1"),
    (">", "continue thread 2"), (">>", "Resume"), ("<<", "done"), ("<", "success: all threads run on"),
]
STEP = 24
HERE = os.path.dirname(os.path.abspath(__file__))


def misplaced():
    """Why the layers aren't those of crates.txt, in words; None where they are."""
    listed = listed_crates()
    rows = {name: at for at, row in enumerate(reversed(ROWS)) for _, _, name, _ in row}
    # The edge is drawn below what it stands on: it is where the bytes come from.
    rows["wire_edge"] = rows["wire_core"] + 1
    due = {name for name in listed if not name.endswith(("_tests", "_bench"))}
    if due != set(rows):
        return "not in both crates.txt and ROWS: %s" % ", ".join(sorted(due ^ set(rows)))
    wrong = ["%s on %s" % (name, used) for name in rows for used in listed[name]
             if rows.get(used, -1) >= rows[name]]
    return "not above what it stands on: %s" % wrong[0] if wrong else None


def box(place, colour, name, what=""):
    """A box at a place: how far right and down it begins, and how wide and high it is."""
    x, y, width, height = place
    rows = ['<rect x="%g" y="%g" width="%g" height="%g" rx="5" fill="%s" stroke="#445"/>' % (*place, colour)]
    middle, centre = x + width / 2, y + height / 2
    rows.append('<text x="%g" y="%g" class="name">%s</text>' % (middle, centre - (3 if what else -5), escape(name)))
    if what:
        rows.append('<text x="%g" y="%g" class="what">%s</text>' % (middle, centre + 13, escape(what)))
    return rows


def arrow(x, y, to, text, heads):
    """A line with a head at its end or at both ends, and what goes over it."""
    marks = 'marker-end="url(#head)"' + (' marker-start="url(#head)"' if heads == "both" else "")
    return ['<line x1="%g" y1="%g" x2="%g" y2="%g" stroke="#445" %s/>' % (x, y, to, y, marks),
            '<text x="%g" y="%g" class="what">%s</text>' % ((x + to) / 2, y - 6, escape(text))]


def layers():
    """The crates between an editor and a Java machine, each standing on some of those below it."""
    rows, y = [], 10
    for row in ROWS:
        unit = (RIGHT - LEFT - GAP * (len(row) - 1)) / sum(share for share, *_ in row)
        x = LEFT
        for share, colour, name, what in row:
            rows += box((x, y, share * unit, HEIGHT), colour, name, what)
            x += share * unit + GAP
        y += HEIGHT + GAP
    edge = y - GAP - HEIGHT / 2
    rows += box((10, 10, 75, y - GAP - 10), OUTSIDE, "editor", "DAP")
    rows += box((WIDTH - 85, 10, 75, y - GAP - 10), OUTSIDE, "Java", "JDWP")
    rows += arrow(92, edge, LEFT - 7, "TCP", "both") + arrow(RIGHT + 7, edge, WIDTH - 92, "TCP", "both")
    for at, (colour, text) in enumerate(LEGEND):
        x = LEFT + at * 190
        rows.append('<rect x="%g" y="%g" width="14" height="14" fill="%s" stroke="#445"/>' % (x, y + 4, colour))
        rows.append('<text x="%g" y="%g" class="key">%s</text>' % (x + 20, y + 16, escape(text)))
    return rows, y + 30


def exchange(messages):
    """Messages, from top to bottom, between three lines of time."""
    editor, bridge, java = 120, WIDTH / 2, WIDTH - 120
    ways = {">": (editor, bridge), "<": (bridge, editor), ">>": (bridge, java), "<<": (java, bridge)}
    bottom = 70 + STEP * len(messages)
    rows = []
    for x in (editor, bridge, java):
        rows.append('<line x1="%g" y1="50" x2="%g" y2="%g" stroke="#99a"/>' % (x, x, bottom))
    for x, colour, name in ((editor, OUTSIDE, "editor"), (bridge, PROVED, "bridge"), (java, OUTSIDE, "Java machine")):
        rows += box((x - 70, 10, 140, 40), colour, name)
    for at, (way, text) in enumerate(messages):
        start, to = ways[way]
        inset = 3 if start < to else -3
        rows += arrow(start + inset, 80 + STEP * at, to - inset, text, "end")
    return rows, bottom + 10


def write(name, drawing):
    rows, height = drawing
    head = '<svg xmlns="http://www.w3.org/2000/svg" viewBox="0 0 %d %d" font-family="sans-serif">' % (WIDTH, height)
    style = ('<style>text { text-anchor: middle; fill: #112; } .name { font-size: 15px; font-weight: bold; } '
             '.what { font-size: 12px; } .key { font-size: 12px; text-anchor: start; }</style>')
    marker = ('<defs><marker id="head" markerWidth="9" markerHeight="8" refX="7" refY="4" orient="auto-start-reverse">'
              '<path d="M0,0 L8,4 L0,8 z" fill="#445"/></marker></defs>')
    ground = '<rect width="%d" height="%d" fill="#fff"/>' % (WIDTH, height)
    with open(os.path.join(HERE, name), "w", encoding="utf-8") as file:
        file.write("\n".join([head, style, marker, ground, *rows, "</svg>"]) + "\n")


if __name__ == "__main__":
    why = misplaced()
    if why:
        sys.exit("drawings.py: %s" % why)
    write("layers.svg", layers())
    write("session.svg", exchange(SESSION))
    write("stop.svg", exchange(STOP))
