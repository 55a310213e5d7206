#!/usr/bin/env python3
"""Memory that is refused, everywhere in turn: the program runs under a limit on memory that falls page by page, from
one that is enough to one under which it doesn't begin. Each case is kept or broken.

- `script` of `examples/scripts/worked.script`, and `generate 1`: each run ends with status 0 and the whole output, or
  with status 70 and an output that is empty or says so. A file is whole, or isn't there.

The gate doesn't run it: a program with checks takes more memory than a limit leaves, so it takes one that is proved.

usage: examples/refused_memory.py [PROGRAM]
"""
import os
import resource
import subprocess
import sys
import tempfile
from functools import partial

from building import PATIENCE, plainly, program_of, tried
from ended_runs import ran
from hostile import SCRIPT
from sessions import has_to_be

REFUSED = (70, ("", "ended 70 memory\n"))
PAGE = resource.getpagesize()
# A limit that is enough, and how many pages are tried.
ENOUGH, PAGES = 1 << 30, 4096


def ran_within(program, words, limit):
    """The status of a run whose memory has this limit, and what it prints."""
    how = {"stdin": subprocess.DEVNULL, "stdout": subprocess.PIPE, "stderr": subprocess.DEVNULL}
    run = subprocess.run([program, *words], **how, timeout=PATIENCE, check=False,
                         preexec_fn=lambda: resource.setrlimit(resource.RLIMIT_AS, (limit, limit)))
    return run.returncode, run.stdout.decode(errors="replace")


def least(enough):
    """The least number of pages that is enough, of up to those of a limit that is."""
    low, high = 0, ENOUGH // PAGE
    while low + 1 < high:
        middle = (low + high) // 2
        low, high = (low, middle) if enough(middle * PAGE) else (middle, high)
    return high


def memory_is_refused(words, out, program):
    """Runs of the program on these words, each with a page less, until it doesn't begin: it prints no usage then."""
    whole = ran(program, words)
    content = taken(out)
    has_to_be("a run with all memory", whole[0], 0)
    enough = least(lambda limit: ran_within(program, words, limit) == whole)
    begins = least(lambda limit: ran_within(program, [], limit)[0] == 2)
    taken(out)
    seen = set()
    for pages in range(enough, max(begins, enough - PAGES) - 1, -1):
        status, printed = ran_within(program, words, pages * PAGE)
        file = taken(out)
        if (status, printed, file) != (*whole, content):
            has_to_be("the status within %d pages" % pages, status, REFUSED[0])
            has_to_be("the output within %d pages" % pages, printed in REFUSED[1], True)
            has_to_be("the file within %d pages" % pages, file, None)
        seen.add(status)
    print("%s: from %d pages down to %d" % (words[0], enough, begins))
    return seen >= {0, REFUSED[0]}


def taken(out):
    """What stands in a file, which is taken away, if there is one."""
    if out is None or not os.path.exists(out):
        return None
    with open(out, "rb") as file:
        content = file.read()
    os.remove(out)
    return content


def main():
    program = program_of(sys.argv[1:])
    with tempfile.TemporaryDirectory(prefix="refused-") as folder:
        out = os.path.join(folder, "log")
        cases = (("memory_is_refused_to_a_script", ["script", SCRIPT], None),
                 ("memory_is_refused_to_a_generated_session", ["generate", "1", "--out", out], out))
        return tried((name, partial(memory_is_refused, words, file, program)) for name, words, file in cases)


if __name__ == "__main__":
    plainly(main)
