#!/usr/bin/env python3
"""Attaches the launcher to Java machines that aren't beside it, and stops each at a line.

- One in a network namespace of its own, as in a container, over a pair of virtual links. That wants the system's leave.
- One behind the forwarding of `ssh`, served by an `sshd` of this script on the loopback interface.

The Java program is examples/shop/Orders.java, which runs on when the editor has left. What the system has or allows no
means for is skipped.

usage: examples/far_machines.py [PROGRAM]
"""
import contextlib
import getpass
import os
import shutil
import subprocess
import sys
import tempfile
import time
from functools import partial

from building import PATIENCE, plainly, program_of, tried
from debug import end
from first_session import SOURCE
from java_machine import EXAMPLES, compiled, is_listened_at, lacking, tool
from launching import Editor
from over_tcp import dial, free_port
from sessions import has_to_be, line_of

SBIN = os.pathsep.join([os.environ.get("PATH", ""), "/usr/sbin"])
AGENT = "-agentlib:jdwp=transport=dt_socket,server=y,suspend=y,address="
# The namespace and both ends of its link have this in their names, and the network is one for tests (RFC 5737).
NAME = "bridge%d" % os.getpid()
NEAR, FAR = "192.0.2.%d" % (os.getpid() % 63 * 4 + 1), "192.0.2.%d" % (os.getpid() % 63 * 4 + 2)
# The commands that make the namespace, and what its own end of the link wants.
MADE = ("ip netns add {name}", "ip link add {name}n type veth peer name {name}f netns {name}",
        "ip addr add {near}/30 dev {name}n", "ip link set {name}n up",
        "ip netns exec {name} ip addr add {far}/30 dev {name}f", "ip netns exec {name} ip link set {name}f up")
SSHD = """ListenAddress 127.0.0.1
HostKey {folder}/host
AuthorizedKeysFile {folder}/me.pub
PidFile none
StrictModes no
UsePAM no
"""
SSH = ["-N", "-o", "BatchMode=yes", "-o", "StrictHostKeyChecking=no", "-o", "UserKnownHostsFile=/dev/null", "-o",
       "ExitOnForwardFailure=yes", "-o", "LogLevel=ERROR"]


@contextlib.contextmanager
def running(words, **how):
    process = subprocess.Popen(words, **how)
    try:
        yield process
    finally:
        end(process)
        if process.stdout:
            process.stdout.close()


@contextlib.contextmanager
def java_at(address, before=()):
    """A Java program that waits for its debugger at this address, run by the command before it."""
    with tempfile.TemporaryDirectory() as folder:
        compiled(folder, os.path.join(EXAMPLES, SOURCE))
        words = [*before, tool("java"), AGENT + address, "-cp", folder, "shop.Orders"]
        with running(words, stdout=subprocess.PIPE, text=True) as java:
            has_to_be("what it prints first", java.stdout.readline().startswith("Listening for transport"), True)
            yield java


def is_stopped(program, target):
    """Whether a session stops the Java machine at a place, and leaves it to run on."""
    path = os.path.join(EXAMPLES, SOURCE)
    with Editor(program) as editor:
        arguments = {"target": target, "sourceRoots": [EXAMPLES]}
        editor.begin("attach", arguments, [(path, [line_of(SOURCE, "total += cost")])])
        frames = editor.frames(editor.stop())
        has_to_be("where it stops", (frames[0]["name"], frames[0]["source"]["path"]), ("shop.Orders$Order.total", path))
        has_to_be("how it ends", editor.left(), (0, "ended 0 done\n"))
    return True


def runs_on(java):
    """Whether a Java program that was left prints its first line of its own. That it listens again comes before or
    behind that."""
    lines = [java.stdout.readline() for _ in range(2)]
    return "Ada wants things for 22\n" in lines


def made():
    """Makes the namespace; gives why the system refuses it."""
    for command in MADE:
        words = command.format(name=NAME, near=NEAR, far=FAR).split()
        ran = subprocess.run(words, stdout=subprocess.DEVNULL, stderr=subprocess.PIPE, text=True, check=False)
        if ran.returncode:
            return ran.stderr.strip() or "%s fails" % command
    return None


def one_in_a_namespace_is_stopped(program):
    """The Java machine listens at all addresses of its namespace, as one in a container has to."""
    with java_at("*:5005", ["ip", "netns", "exec", NAME]) as java:
        return is_stopped(program, FAR + ":5005") and runs_on(java)


def one_behind_ssh_is_stopped(program):
    """The near port is that of `ssh`, which dials the Java machine for each connection."""
    far, near, port = free_port(), free_port(), free_port()
    with tempfile.TemporaryDirectory() as folder, java_at("127.0.0.1:%d" % far) as java:
        for name in ("host", "me"):
            words = ["ssh-keygen", "-q", "-t", "ed25519", "-N", "", "-f", os.path.join(folder, name)]
            subprocess.run(words, timeout=PATIENCE, check=True)
        settings = os.path.join(folder, "settings")
        with open(settings, "w", encoding="utf-8") as file:
            file.write(SSHD.format(folder=folder))
        os.makedirs("/run/sshd", exist_ok=True)
        forward = ["-L", "127.0.0.1:%d:127.0.0.1:%d" % (near, far), "-p", str(port), "-i", os.path.join(folder, "me")]
        with running([shutil.which("sshd", path=SBIN), "-D", "-f", settings, "-p", str(port)]) as sshd:
            dial(port, sshd).close()
            with running(["ssh", *SSH, *forward, "%s@127.0.0.1" % getpass.getuser()]) as ssh:
                # A connection is handed on at once, so it would be a debugger to the Java machine.
                while ssh.poll() is None and not is_listened_at(near):
                    time.sleep(0.02)
                return is_stopped(program, "127.0.0.1:%d" % near) and runs_on(java)


def without(*names):
    """Why a case isn't tried: there is no JDK, or none of these tools. None where all is there."""
    missing = [name for name in names if not shutil.which(name, path=SBIN)]
    return lacking("java", "javac") or ("there is no %s" % missing[0] if missing else None)


def main():
    whys = {one_in_a_namespace_is_stopped: without("ip"), one_behind_ssh_is_stopped: without("ssh", "sshd")}
    try:
        whys[one_in_a_namespace_is_stopped] = whys[one_in_a_namespace_is_stopped] or made()
        for case, why in whys.items():
            if why:
                print("%s skipped: %s" % (case.__name__, why))
        cases = [case for case, why in whys.items() if not why]
        program = program_of(sys.argv[1:]) if cases else None
        return tried((case.__name__, partial(case, program)) for case in cases)
    finally:
        if shutil.which("ip", path=SBIN):
            subprocess.run(["ip", "netns", "del", NAME], stderr=subprocess.DEVNULL, check=False)


if __name__ == "__main__":
    plainly(main)
