#!/usr/bin/env python3
"""Writes docs/LAWS.md: each law with its words, as they stand at its function in crates/*/src/laws.rt.

usage: docs/laws.py [--check]

--check    writes nothing, and ends with status 1 where the page isn't what the sources say
"""
import os
import re
import sys
import textwrap

TOP = os.path.dirname(os.path.dirname(os.path.abspath(__file__)))
PAGE = os.path.join(TOP, "docs", "LAWS.md")
# The crates that come first, each with its heading; the others follow by name.
FIRST = {
    "session_laws": "Of every session, by its bytes",
    "session_causes": "Of every ending, by its first cause",
    "clean_sessions": "Of sessions in which nothing goes wrong",
    "legal_logs": "Of legal logs, and of verdicts on others",
    "machine_laws": "Of every run of the machine, and of every look-up",
    "composite_laws": "Of composites that suspend the whole target",
    "asking_laws": "Of why a question is sent",
    "lacking_laws": "Of what look-ups lack as replies come",
    "joint_model": "Of the machine beside a target that obeys JDWP",
    "joint_facts": "Of what is known of classes beside such a target",
    "joint_examples": "Of what a target that obeys JDWP may choose",
    "shown_worlds": "Of what look-ups show of a target's world",
    "judged_worlds": "Of what hits come to in a target's world",
    "scripted_joints": "Of the machine beside a scripted target",
    "script_courses": "Of a script's sessions",
}
HEAD = """\
# The laws

A law is the contract of a function with an empty body: a statement of the definitions, proved for all cases. The gate
proves each. What follows is what stands at each in the sources; `docs/laws.py` copies it here, and the gate looks
whether it is so. Where a law has several clauses their names stand behind it.

Some words are used throughout:

- The *wires* are the two byte streams of a session. A *log* has all that came and went over them, in order.
- A *composite* is a packet of events that the target sends unasked.
- An *item* is a request, a composite or the target's end. Items take *turns*: one is in hand, the others wait.
- A *row* says what an item does, part by part. A *look-up* is a part that asks the target. A *plan* is what it asks.
- *At rest* nothing is due, and no command and no handshake is pending.
- A *wish* is an event request that what the client set asks for. A *watch* is one for classes that are prepared.
- A suspension of the target is *held* until its Resume goes. The *entry* is that of the target's start.
"""
# The comment of a law, its name, and its contract.
LAW = re.compile(r"((?:^/// .*\n)+)pub fn (\w+)\([^)]*\)\n((?:    .*\n)*)", re.MULTILINE)


def laws_in(text):
    """The laws of a source: the name of each, its words, and the names of its clauses."""
    for comment, name, contract in LAW.findall(text):
        words = " ".join(line.removeprefix("///").strip() for line in comment.splitlines())
        yield name, words, re.findall(r"^    ensures (\w+) \{", contract, re.MULTILINE)


def told(name, words, clauses):
    """A law as the page has it."""
    behind = " Clauses %s." % ", ".join("`%s`" % clause for clause in clauses) if clauses else ""
    text = "**`%s`.** %s%s" % (name, words, behind)
    return textwrap.fill(text, 120, break_long_words=False, break_on_hyphens=False)


def section(crate, heading):
    """The laws of a crate, below its heading."""
    with open(os.path.join(TOP, "crates", crate, "src", "laws.rt"), encoding="utf-8") as file:
        laws = [told(*law) for law in laws_in(file.read())]
    return "\n\n".join(["## " + heading] + laws)


def page():
    """The whole page."""
    found = sorted(crate for crate in os.listdir(os.path.join(TOP, "crates")) if is_of_laws(crate))
    parts = [section(crate, "%s (`%s`)" % (heading, crate)) for crate, heading in FIRST.items()]
    parts += [section(crate, "Of `%s`" % crate) for crate in found if crate not in FIRST]
    return HEAD + "\n" + "\n\n".join(parts) + "\n"


def is_of_laws(crate):
    """Whether a crate has a file of laws."""
    return os.path.isfile(os.path.join(TOP, "crates", crate, "src", "laws.rt"))


def main():
    text = page()
    if sys.argv[1:] == ["--check"]:
        with open(PAGE, encoding="utf-8") as file:
            return 0 if file.read() == text else "docs/LAWS.md isn't what the sources say: docs/laws.py writes it anew"
    if sys.argv[1:]:
        return __doc__.strip()
    with open(PAGE, "w", encoding="utf-8") as file:
        file.write(text)
    return 0


sys.exit(main())
