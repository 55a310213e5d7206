#!/usr/bin/env python3
"""The debug adapter that an editor starts for a Java program, over its standard input and output.

It starts the Java program that a `launch` names, or reaches the one that an `attach` names, and the bridge beside it;
and it ends what it started. docs/EDITORS.md says what both requests take. The line that the bridge prints goes to the
standard error. The status is that of the bridge; 2 where there was none, 1 where the editor goes away before.

usage: editors/launch.py [--target HOST:PORT] [--listen PORT] [--plain] [--record FILE] [--program PROGRAM]

  --target HOST:PORT   where the Java machine of an `attach` listens, where the request doesn't say so
  --listen PORT        serves editors that connect to this port of this machine, one session after another
  --plain              hands on what both say, and adds nothing to it
  --record FILE        has the bridge write the log of its session to FILE as it ends, of a second session to FILE.2, and
                       so on
  --program PROGRAM    a built bridge; without it the one of this repository, crates/bridge_cmd/out/bridge_cmd, or where
                       there is none the one beside it that isn't proved
"""
import argparse
import itertools
import os
import signal
import socket
import sys

from launcher.bridge import PROGRAM, UNPROVED
from launcher.keeper import Keeper
from launcher.session import Session
from launcher.wire import EditorGone, Reader, Writer


def stop(text):
    print("launch.py: %s" % text, file=sys.stderr)
    sys.exit(2)


def options(words):
    parser = argparse.ArgumentParser()
    parser.format_help = lambda: __doc__
    parser.error = stop
    parser.add_argument("--target")
    parser.add_argument("--listen", type=int)
    parser.add_argument("--plain", action="store_true")
    parser.add_argument("--record")
    parser.add_argument("--program")
    chosen = parser.parse_args(words)
    chosen.records = record_names(chosen.record)
    if not chosen.program:
        chosen.program = PROGRAM
        if os.path.isfile(UNPROVED) and not os.path.isfile(PROGRAM):
            chosen.program = UNPROVED
            print("launch.py: the bridge that runs is not proved", file=sys.stderr)
    return chosen


def record_names(path):
    """The file that each session is recorded to, or nothing for each."""
    if not path:
        return itertools.repeat(None)
    path = os.path.abspath(path)
    return itertools.chain([path], ("%s.%d" % (path, number) for number in itertools.count(2)))


def to_editor(piece):
    """Writes all of a piece to the standard output."""
    try:
        while piece:
            piece = piece[os.write(1, piece) :]
    except OSError:
        raise EditorGone from None


def over_streams(chosen, keeper):
    """Serves the editor that started this script."""
    return Session(Reader(lambda count: os.read(0, count)), Writer(to_editor), chosen, keeper).run()


def over_link(link, chosen, keeper):
    """Serves an editor that has connected."""

    def send(piece):
        try:
            link.sendall(piece)
        except OSError:
            raise EditorGone from None

    with link:
        link.setsockopt(socket.IPPROTO_TCP, socket.TCP_NODELAY, 1)
        return Session(Reader(link.recv), Writer(send), chosen, keeper).run()


def over_port(chosen, keeper):
    """Serves the editors that connect, one after the other, until a signal ends this script."""
    try:
        listener = socket.create_server(("127.0.0.1", chosen.listen))
    except (OSError, OverflowError) as trouble:
        stop("nothing can listen at port %d: %s" % (chosen.listen, trouble))
    with listener:
        while True:
            over_link(listener.accept()[0], chosen, keeper)


def main(words):
    chosen = options(words)
    # Whatever ends this script, what it started ends with it.
    for number in (signal.SIGINT, signal.SIGTERM, signal.SIGHUP):
        signal.signal(number, lambda number, _: sys.exit(128 + number))
    keeper = Keeper()
    try:
        return (over_port if chosen.listen else over_streams)(chosen, keeper)
    finally:
        for number in (signal.SIGINT, signal.SIGTERM, signal.SIGHUP):
            signal.signal(number, signal.SIG_IGN)
        keeper.end()


if __name__ == "__main__":
    sys.exit(main(sys.argv[1:]))
