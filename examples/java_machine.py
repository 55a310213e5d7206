"""What the scripts share of Java: the tools of a JDK, and a Java program under the agent that debuggers attach to."""
import os
import re
import select
import shutil
import subprocess
import threading
import time

from building import PATIENCE, TOP
from over_tcp import Program, free_port

EXAMPLES = os.path.join(TOP, "examples")
AGENT = "-agentlib:jdwp=transport=dt_socket,server=y,quiet=y,suspend=%s,address=127.0.0.1:%d"

# The threads of the program's own, and its output: up to where it waits for a line, and behind it.
THREADS = ["main", "first worker", "second worker", '"third" w\u00f6rker']
UP = b"up\n"
RAN = b"ran\n"
DOWN = b"made 500500\nmade 500500\nmade 500500\ndown\n"

# The debugger by the Java Debug Interface, and what it says: hits and milliseconds.
DEBUGGER = os.path.join(TOP, "bench", "Hits.java")
COUNTED = re.compile(r"hits (\d+), all ([\d.]+) ms, median ([\d.]+) ms\n")


def tool(name):
    """The path of a tool of the JDK: of JAVA_HOME, else of the path. None where there is none."""
    home = os.environ.get("JAVA_HOME")
    found = (home and shutil.which(name, path=os.path.join(home, "bin"))) or shutil.which(name)
    return found and os.path.abspath(found)


def lacking(*names):
    """Why no Java program can be debugged with these tools; None where it can."""
    for name in names:
        if not tool(name):
            return "there is no %s" % name
    ran = subprocess.run([tool("java"), "-agentlib:jdwp=help"], stdin=subprocess.DEVNULL, stdout=subprocess.DEVNULL,
                         stderr=subprocess.DEVNULL, timeout=PATIENCE, check=False)
    return None if ran.returncode == 0 else "the Java machine has no agent for JDWP"


def compiled(folder, *sources):
    """Compiles sources, by default that of the program with workers, and gives the folder of their classes, which tell
    debuggers all."""
    paths = sources or [os.path.join(EXAMPLES, "Workers.java")]
    words = [tool("javac"), "-g", "-encoding", "UTF-8", "-d", folder, *paths]
    subprocess.run(words, stdin=subprocess.DEVNULL, timeout=PATIENCE, check=True)
    return folder


def is_listened_at(port):
    """Whether somebody listens at a port, by the system's tables. A connection would show it, too, but the agent takes
    each for a debugger."""
    rows = []
    for name in ("/proc/net/tcp", "/proc/net/tcp6"):
        if os.path.exists(name):
            with open(name, encoding="ascii") as table:
                rows += [line.split() for line in table][1:]
    return any(row[3] == "0A" and int(row[1].rpartition(":")[2], 16) == port for row in rows)


class JavaProgram:
    """A program under the agent. It is killed when it took too long, so that no read of its output takes longer. Where
    something is wrong meanwhile, its standard error is printed."""

    def __init__(self, classes, main="Workers", words=(), suspend=False, longest=PATIENCE):
        self.port = free_port()
        self.classes = classes
        java = [tool("java"), AGENT % ("y" if suspend else "n", self.port), "-cp", classes, main]
        # Its pipes have no buffers here, so that the system tells whether there is more to read.
        self.process = subprocess.Popen([*java, *words], cwd=classes, stdin=subprocess.PIPE, stdout=subprocess.PIPE,
                                        stderr=subprocess.PIPE, bufsize=0)
        self.limit = threading.Timer(longest, self.process.kill)
        self.limit.start()

    def __enter__(self):
        return self

    def __exit__(self, trouble, *_):
        self.limit.cancel()
        self.process.kill()
        self.process.wait()
        if trouble and issubclass(trouble, Exception):
            print("standard error of the Java program:", self.errors())

    def wait_until_up(self):
        """Reads its first line. From there on it listens for a debugger, and runs no more threads but where it is
        told."""
        if self.process.stdout.readline() != UP:
            raise EOFError("the Java program isn't up: %s" % self.errors())

    def wait_until_listening(self):
        """Waits until it listens for a debugger."""
        while not is_listened_at(self.port):
            if self.process.poll() is not None:
                raise EOFError("the Java program doesn't listen: %s" % self.errors())
            time.sleep(0.02)

    def run_thread(self):
        """Has it run one thread more, to its end."""
        self.process.stdin.write(b"s\n")
        self.process.stdin.flush()
        if self.process.stdout.readline() != RAN:
            raise EOFError("the Java program ran no thread: %s" % self.errors())

    def go_on(self):
        """Gives it the line that it waits for."""
        self.process.stdin.write(b"\n")
        self.process.stdin.flush()

    def heard(self, seconds):
        """What it has printed, and prints for so many seconds more."""
        heard = b""
        until = time.monotonic() + seconds
        while select.select([self.process.stdout], [], [], max(0, until - time.monotonic()))[0]:
            piece = os.read(self.process.stdout.fileno(), 65536)
            if not piece:
                break
            heard += piece
        return heard

    def end(self):
        """What it printed behind the first line, up to its end, and its status."""
        return self.process.stdout.read(), self.process.wait(PATIENCE)

    def errors(self):
        """What it printed to its standard error, up to its end. The agent says there which debuggers it dropped."""
        return self.process.stderr.read().decode(errors="replace").strip()


def over_java(program, classes, case, suspend=False, main="Workers", *words):
    """Runs a case with a Java program, and the bridge beside it. It is kept where it raises nothing."""
    with JavaProgram(classes, main, words, suspend) as java:
        if suspend:
            java.wait_until_listening()
        else:
            java.wait_until_up()
        with Program(program, java.port, subprocess.PIPE) as bridge:
            case(java, bridge)
    return True


def hits_by_jdi(java, main, line, hold=0):
    """Lets a debugger by the Java Debug Interface resume all hits of a line in a program that waits for its debugger,
    each after so many milliseconds. Gives the number of hits, the milliseconds from the first to the last, and those
    from a resume to the next hit in the median."""
    java.wait_until_listening()
    words = [tool("java"), "-cp", java.classes, "Hits", str(java.port), main, str(line), str(hold)]
    said = subprocess.run(words, stdin=subprocess.DEVNULL, stdout=subprocess.PIPE, timeout=PATIENCE, check=True).stdout
    counted = COUNTED.fullmatch(said.decode())
    if not counted:
        raise ValueError("the debugger by the Java Debug Interface says %r" % said)
    return int(counted[1]), float(counted[2]), float(counted[3])
