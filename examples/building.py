"""What the scripts share of the program: building it, crate by crate, or taking the one that is named.

Each trouble is said in one line, and ends the script with status 2.
"""
import os
import re
import shlex
import shutil
import signal
import socket
import subprocess
import sys
import tempfile
import time

from crate_list import CRATES, PARTS, TOP, copy_crates, crates_below, listed_crates

NAME = os.path.basename(sys.argv[0])
PROGRAM = os.path.join(CRATES, "bridge_cmd", "out", "bridge_cmd")
LOG = os.path.join(TOP, "build.log")
# The bridge as it stands, with no proof of it: what runs it, and what that runs.
UNPROVED = os.path.join(CRATES, "bridge_cmd", "out", "unproved")
# How long it may take to be compiled, in seconds.
COMPILED = 3600
USAGE = "usage: bridge serve --listen A --target B, script FILE, replay LOG, generate N --out FILE, " \
        "record --listen A --target B --out FILE, dump --target B\n"
PATIENCE = 60
# What may go wrong around a script, and in what it compares.
TROUBLES = (OSError, EOFError, ValueError, LookupError, subprocess.SubprocessError)


def stop(text):
    """Ends the script with one line."""
    print("%s: %s" % (NAME, text), file=sys.stderr)
    sys.exit(2)


if sys.version_info < (3, 9):
    stop("Python 3.9 or later is needed, and this is %d.%d" % sys.version_info[:2])


def plainly(main):
    """Runs a script to its end, or prints what stands at its front where its first word asks for help. What is wrong is
    said in one line. A signal ends it as Ctrl-C does, and with it what it started."""
    for number in (signal.SIGTERM, signal.SIGHUP):
        # The second is ignored under `nohup`, and stays so.
        if signal.getsignal(number) is not signal.SIG_IGN:
            signal.signal(number, lambda *_: sys.exit(130))
    if sys.argv[1:2] in (["-h"], ["--help"]):
        print(sys.modules["__main__"].__doc__.strip())
        sys.exit(0)
    try:
        sys.exit(main())
    except KeyboardInterrupt:
        sys.exit(130)
    except TROUBLES as trouble:
        stop(str(trouble) or type(trouble).__name__)


def tried(cases):
    """Tries cases, each a name and a call, and prints of each whether it is kept. Gives the status: 0 where all are."""
    broken = 0
    for name, case in cases:
        try:
            is_kept = case()
        except TROUBLES as trouble:
            print(str(trouble) or type(trouble).__name__)
            is_kept = False
        print(name, "kept" if is_kept else "BROKEN", flush=True)
        broken += not is_kept
    return 1 if broken else 0


def program_of(words):
    """The program that the first word names, or the one that stands here unproved; without a word, the one that is
    built here."""
    if words[:1] == ["--unproved"]:
        return unproved()
    return checked(os.path.abspath(words[0])) if words else built()


def program_as_it_is(words):
    """The program that the first word names; without a word, the one that stands here, which is built only where there
    is none."""
    return program_of(words or [path for path in [PROGRAM] if os.path.isfile(path)])


def checked(path):
    """The path of a program that prints the bridge's usage where it is run without words."""
    if not os.path.isfile(path):
        stop("there is no program %s" % path)
    try:
        ran = subprocess.run([path], stdin=subprocess.DEVNULL, stdout=subprocess.PIPE, stderr=subprocess.STDOUT,
                             timeout=PATIENCE, check=False)
    except (OSError, subprocess.TimeoutExpired):
        stop("%s can't be run" % path)
    if ran.returncode != 2 or ran.stdout != USAGE.encode():
        stop("%s isn't the program bridge: without words it doesn't print the bridge's usage" % path)
    return path


def built():
    """Gives the path of the program. Proves and builds it first, unless it is newer than all that it is made from."""
    if is_built(PROGRAM):
        return checked(PROGRAM)
    demand_kit()
    print("Proving and building the program: %d crates, one line each." % len(crates))
    print("README.md says under Set up how long it takes from nothing. Later only what changed is proved again.")
    print("What the prover says goes to %s" % LOG, flush=True)
    begun, start = time.time(), time.monotonic()
    with tempfile.TemporaryDirectory(prefix="bridge-") as folder:
        copy_crates("bridge_cmd", folder)
        prove(folder, start)
        os.makedirs(os.path.dirname(PROGRAM), exist_ok=True)
        shutil.copy(os.path.join(folder, os.path.relpath(PROGRAM, TOP)), PROGRAM + ".new")
    # A file that was changed meanwhile is newer than the program.
    os.utime(PROGRAM + ".new", (begun, begun))
    os.replace(PROGRAM + ".new", PROGRAM)
    print("The program is at %s, after %s." % (checked(PROGRAM), minutes(time.monotonic() - start)), flush=True)
    return PROGRAM


def demand_kit():
    if not shutil.which("rt"):
        stop("there is no command rt in the path: README.md says under Set up what the Rattle kit is")


def is_built(program):
    """Whether the program is there, and newer than all that a proof of its crates reads."""
    if not os.path.isfile(program):
        return False
    made = os.path.getmtime(program)
    crates = ["bridge_cmd", *crates_below("bridge_cmd", listed_crates())]
    walks = (walk for crate in crates for part in PARTS for walk in os.walk(os.path.join(CRATES, crate, part)))
    read = [os.path.join(folder, file) for folder, _, files in walks for file in (".", *files)]
    read += [os.path.join(TOP, file) for file in ("crates.txt", "HANDLES")]
    return all(os.path.getmtime(path) < made for path in read)


def prove(folder, start):
    """Proves the crates of a folder by `rt ci`, and prints a line for each. It builds and runs their program, too."""
    # `rt ci` runs at the top of a repository.
    os.mkdir(os.path.join(folder, ".git"))
    how = {"cwd": folder, "stdin": subprocess.DEVNULL, "stdout": subprocess.PIPE, "stderr": subprocess.STDOUT,
           "encoding": "utf-8", "errors": "replace"}
    with open(LOG, "w", 1, "utf-8") as log, subprocess.Popen(["rt", "ci"], **how) as run:
        try:
            for line in run.stdout:
                log.write(line)
                said = re.match(r"rt: (\w+) (proved|is kept|NOT PROVED)", line)
                if said:
                    print("  %-18s %-10s at %s" % (*said.groups(), minutes(time.monotonic() - start)), flush=True)
        except BaseException:
            run.terminate()
            run.wait()
            raise
    if run.returncode:
        stop("rt ci ended with status %d; %s says why" % (run.returncode, LOG))


def unproved():
    """Gives the path of the bridge as it stands, with no proof of it. Compiles it first, unless it is newer than all
    that it is made from. Each access to memory is checked as it runs."""
    if is_built(UNPROVED):
        return checked(UNPROVED)
    demand_kit()
    print("The bridge is compiled, unproved: this takes two to three minutes, or more on a busy machine", flush=True)
    begun = time.time()
    with socket.create_server(("127.0.0.1", 0)) as target, tempfile.TemporaryFile() as log:
        place = "127.0.0.1:%d" % target.getsockname()[1]
        words = ["rt", "try", "--seconds", str(COMPILED), "--", "serve", "--listen", "127.0.0.1:0", "--target", place]
        with subprocess.Popen(words, cwd=os.path.join(CRATES, "bridge_cmd"), stdin=subprocess.DEVNULL, stdout=log,
                              stderr=log) as run:
            try:
                keep(*running(run, target, place.encode()))
            except EOFError:
                log.seek(0)
                sys.stderr.write(log.read().decode(errors="replace"))
                stop("the bridge wasn't compiled")
            finally:
                run.terminate()
    os.utime(UNPROVED, (begun, begun))
    return checked(UNPROVED)


def running(run, target, place):
    """What runs the bridge that the kit has compiled, before the bridge's own words, and in which folder: known once it
    dials its target, which has this place."""
    target.settimeout(1)
    while True:
        try:
            target.accept()[0].close()
            break
        except socket.timeout:
            if run.poll() is not None:
                raise EOFError from None
    for number in filter(str.isdigit, os.listdir("/proc")):
        try:
            with open("/proc/%s/cmdline" % number, "rb") as file:
                words = file.read().split(b"\0")
            folder = os.readlink("/proc/%s/cwd" % number)
        except OSError:
            continue
        if place in words and words[words.index(b"serve") - 1].startswith(folder.encode() + b"/"):
            return [os.fsdecode(word) for word in words[: words.index(b"serve")]]
    raise EOFError


def keep(*words):
    """Keeps a copy of the program that these words run, and a script that runs it as they do."""
    copy = UNPROVED + ".program"
    os.makedirs(os.path.dirname(copy), exist_ok=True)
    shutil.copy(words[-1], copy + ".new")
    os.replace(copy + ".new", copy)
    with open(UNPROVED + ".new", "w", encoding="utf-8") as file:
        file.write("#!/bin/sh\nexec %s \"$@\"\n" % shlex.join([*words[:-1], copy]))
    os.chmod(UNPROVED + ".new", 0o755)
    os.replace(UNPROVED + ".new", UNPROVED)


def minutes(seconds):
    return "%d:%02d min" % divmod(round(seconds), 60)
