#!/usr/bin/env python3
"""Starts a Java program with the bridge beside it, and says where an editor attaches.

MAIN is a class, looked for in the class path, a .jar file, or a .java file, which is compiled first. The Java program
runs with its own standard streams, and its words are those behind MAIN. One session is served. Whatever ends this
script, Ctrl-C too, the Java program and the bridge end with it. Its status is that of the bridge; 2 where there was no
session, 1 where it didn't end by itself, 130 after Ctrl-C.

usage: examples/debug.py [--suspend] [--port N] [--class-path PATH] [--sources FOLDER] [--program PROGRAM | --unproved]
                         MAIN [WORD..]

  --suspend           the Java program waits before its first line, until the editor has set its breakpoints
  --port N            the port for the editor; without it a free one
  --class-path PATH   where the classes are; without it the current folder, or where a .java file is compiled to. A .jar
                      file has its own
  --sources FOLDER    a root of sources, once or more; without it the current folder, or the root of a .java file
  --program PROGRAM   a built bridge; without it the one of this repository, which is built where it isn't yet
  --unproved          the bridge of this repository as it stands, with no proof of it: it is compiled the first time, in
                      two to three minutes, and each access to memory is checked
"""
import argparse
import contextlib
import json
import os
import re
import socket
import subprocess
import tempfile
import time

from building import PATIENCE, plainly, program_as_it_is, stop
from java_machine import AGENT, tool
from over_tcp import free_port

# How long an editor has to disconnect once the Java program has ended, in seconds.
LEAVE = 5
# How long a bridge that reached its target may take to listen, or a Java program to end behind the bridge, in seconds.
SETTLE = 3
# The status of a bridge that didn't reach its target.
NOT_OPENED = 7
LATE = "  If Java writes `Debugger failed to attach`, the editor came late: that does no harm, and it may still attach"
# The line that names a Java source's package.
PACKAGE = re.compile(r"^\s*package\s+([\w.]+)\s*;", re.MULTILINE)


def options():
    words = argparse.ArgumentParser(add_help=False)
    words.error = lambda text: stop("%s; with -h it says which words it takes" % text)
    words.add_argument("--suspend", action="store_true")
    words.add_argument("--port", type=port_number)
    words.add_argument("--class-path")
    words.add_argument("--sources", action="append")
    bridge = words.add_mutually_exclusive_group()
    bridge.add_argument("--program")
    bridge.add_argument("--unproved", action="store_true")
    words.add_argument("main", metavar="MAIN")
    words.add_argument("words", nargs=argparse.REMAINDER).required = False
    return words.parse_args()


def port_number(word):
    if not (word.isdecimal() and 0 < int(word) < 65536):
        raise argparse.ArgumentTypeError("%s is no port from 1 to 65535" % word)
    return int(word)


def jdk_tool(name):
    return tool(name) or stop("there is no %s: a JDK has to be in the path, or named by JAVA_HOME" % name)


def read_source(path):
    """The class of a .java file, and the root of its sources: the folder that its package stands in."""
    try:
        with open(path, encoding="utf-8", errors="replace") as file:
            package = PACKAGE.search(file.read())
    except OSError as trouble:
        stop("%s can't be read: %s" % (path, trouble.strerror))
    folder = os.path.dirname(os.path.abspath(path))
    name = os.path.splitext(os.path.basename(path))[0]
    if not package:
        return name, folder
    within = os.path.join(os.sep, *package[1].split("."))
    root = folder[: -len(within)] if folder.endswith(within) else folder
    return package[1] + "." + name, root or os.sep


def compiled(path, root, classes, class_path):
    words = [jdk_tool("javac"), "-g", "-d", classes, "-sourcepath", root]
    words += ["-cp", class_path] if class_path else []
    if subprocess.run([*words, path], check=False).returncode != 0:
        stop("%s wasn't compiled" % path)


def java_program(chosen, folder):
    """The Java program: how it is called, what a Java machine takes to run it, and the roots of its sources. A .java
    file is compiled to this folder."""
    main, class_path = chosen.main, chosen.class_path
    if main.endswith(".jar"):
        if not os.path.isfile(main):
            stop("there is no file %s" % main)
        return main, ["-jar", main], chosen.sources or ["."]
    if not main.endswith(".java"):
        return main, ["-cp", class_path or ".", main], chosen.sources or ["."]
    name, root = read_source(main)
    compiled(main, root, folder, class_path)
    class_path = folder + (os.pathsep + class_path if class_path else "")
    return name, ["-cp", class_path, name], chosen.sources or [root]


def end(process):
    """Ends a process that may have ended: by a request first."""
    if process.poll() is None:
        process.terminate()
        try:
            process.wait(PATIENCE)
        except subprocess.TimeoutExpired:
            process.kill()
            process.wait()


def checked_port(port):
    """A port that can be listened at: the one that is named, or a free one."""
    try:
        socket.create_server(("127.0.0.1", port or 0)).close()
    except OSError as trouble:
        stop("nothing can listen at port %d: %s" % (port, os.strerror(trouble.errno)))
    return port or free_port()


def is_opened(bridge, port):
    """Whether the bridge reached its target, which it dials before it listens; where it didn't, it ends at once."""
    until = time.monotonic() + SETTLE
    while bridge.poll() is None and time.monotonic() < until:
        try:
            socket.create_connection(("127.0.0.1", port), PATIENCE).close()
            return True
        except ConnectionRefusedError:
            # It doesn't listen yet, or no more, where an editor was quicker than this.
            time.sleep(0.02)
    if bridge.poll() is None:
        return True
    # Where the session is over by now, a line says how it ended.
    return bridge.returncode != NOT_OPENED and bridge.stdout.buffer.peek().startswith(b"ended ")


def bridged(words, port, java, running):
    """The bridge, once it listens at the port. It is started again until the Java machine listens, too."""
    until = time.monotonic() + PATIENCE
    while True:
        bridge = subprocess.Popen(words, stdin=subprocess.DEVNULL, stdout=subprocess.PIPE, text=True)
        running.callback(end, bridge)
        if is_opened(bridge, port):
            return bridge
        said = bridge.communicate()[0].strip()
        if bridge.returncode != NOT_OPENED:
            stop("the bridge ended with status %d: %s" % (bridge.returncode, said or "it printed no line"))
        if java.poll() is not None:
            stop("the Java program ended with status %d, before the bridge reached it" % java.returncode)
        if time.monotonic() > until:
            stop("the bridge reached no Java machine: %s" % said)
        time.sleep(0.1)


def watched(bridge, java):
    """Waits until both have ended, says how each did, and gives the bridge's status. An editor may leave a while after
    the Java program."""
    left = None
    while bridge.poll() is None:
        if left is None and java.poll() is not None:
            tell_end(java)
            left = time.monotonic() + LEAVE
        if left is not None and time.monotonic() > left:
            end(bridge)
            print("Session: ended by this script, as no editor disconnected within %d s" % LEAVE, flush=True)
            return 1
        time.sleep(0.05)
    print("Session: %s" % bridge.stdout.read().strip(), flush=True)
    if left is None:
        with contextlib.suppress(subprocess.TimeoutExpired):
            java.wait(SETTLE)
        if java.poll() is None:
            print("Java program: runs on; Ctrl-C ends it", flush=True)
        tell_end(java)
    return bridge.returncode if bridge.returncode >= 0 else 1


def tell_end(java):
    print("Java program: ended with status %d" % java.wait(), flush=True)


def run(chosen, folder, running):
    """Starts all that is asked for, and gives the bridge's status at its end."""
    java_tool, port = jdk_tool("java"), checked_port(chosen.port)
    name, program, roots = java_program(chosen, folder)
    program_words = ["--unproved"] if chosen.unproved else [chosen.program] if chosen.program else []
    bridge_program = program_as_it_is(program_words)
    target = free_port()
    agent = AGENT % ("y" if chosen.suspend else "n", target)
    java = subprocess.Popen([java_tool, agent, *program, *chosen.words])
    running.callback(end, java)
    words = [bridge_program, "serve", "--listen", "127.0.0.1:%d" % port, "--target", "127.0.0.1:%d" % target]
    bridge = bridged(words, port, java, running)
    print("Java program: %s, process %d%s" % (name, java.pid, ", waits for its debugger" if chosen.suspend else ""))
    print(LATE)
    print("Editor: attach to the debug adapter at 127.0.0.1, port %d, with the arguments" % port)
    print("  " + json.dumps({"sourceRoots": [os.path.abspath(root) for root in roots]}), flush=True)
    return watched(bridge, java)


def main():
    chosen = options()
    with tempfile.TemporaryDirectory() as folder, contextlib.ExitStack() as running:
        return run(chosen, folder, running)


if __name__ == "__main__":
    plainly(main)
