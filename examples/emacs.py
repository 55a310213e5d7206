#!/usr/bin/env python3
"""Lets Emacs with dap-mode hold a session in batch, over a Java program that the launcher starts for it.

Emacs stops examples/shop/Orders.java at a line, shows its variables, sets one, steps, goes on to a second breakpoint,
sets a field there, and lets the program end (editors/batch-session.el). The status is 0 where it shows what is due, and
what the Java program prints is due, too. Where there is no JDK, or no Emacs with dap-mode, it says `skipped`.

usage: examples/emacs.py [PROGRAM]
"""
import os
import shutil
import subprocess
import sys

from building import PATIENCE, TOP, plainly, program_of
from first_session import PRINTED, SOURCE
from java_machine import lacking
from sessions import line_of

SESSION = os.path.join(TOP, "editors", "batch-session.el")
LONGEST = 5 * PATIENCE
# What the Java program prints: its door is closed before it naps.
SAID = ["printed: " + line.replace("some naps", "no nap") for line in PRINTED]


def has_dap_mode():
    words = ["emacs", "--batch", "--eval", "(progn (package-initialize) (require 'dap-mode))"]
    return bool(shutil.which("emacs")) and subprocess.run(words, capture_output=True, check=False).returncode == 0


def due():
    """What Emacs has to print, but for the id of the object that is `this` and the names of the threads."""
    order, cost = "shop.Orders$Order.total", "shop.Orders$Line.cost"
    places = ((order, "total += cost"), (order, "for (Line line"), (order, "int cost = line.cost"),
              (cost, "return price * pieces"), (order, "int cost = line.cost"), ("shop.Orders.waitForTheDoor", "while"))
    stops = []
    for name, text in places:
        line = line_of(SOURCE, text)
        stops.append("stopped: %s, line %d, cursor in Orders.java at line %d" % (name, line, line))
    return [stops[0], 'evaluated: line.thing = "apple"', "set: cost = 1", *stops[1:], "set: isOpen = false",
            "state: terminated", *SAID]


def said_by_emacs(program):
    """What Emacs printed to its standard output, line by line."""
    ran = subprocess.run(["emacs", "--batch", "-l", SESSION], env={**os.environ, "BRIDGE_PROGRAM": program},
                         stdout=subprocess.PIPE, stderr=subprocess.DEVNULL, text=True, timeout=LONGEST, check=False)
    return ran.stdout.splitlines()


def main():
    why = lacking("java", "javac")
    if why or not has_dap_mode():
        print("emacs skipped: %s" % (why or "there is no Emacs with dap-mode"))
        return 0
    lines = said_by_emacs(program_of(sys.argv[1:]))
    print("\n".join(lines))
    compared = [line for line in lines if not line.startswith(("Locals: ", "threads: ", "evaluated: this "))]
    names = [name for line in lines if line.startswith("threads: ") for name in line[len("threads: "):].split(", ")]
    kept = compared == due() and "main" in names
    print("emacs", "kept" if kept else "BROKEN")
    return 0 if kept else 1


if __name__ == "__main__":
    plainly(main)
