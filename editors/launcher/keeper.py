"""Ends all that a launcher started, by a mark that each process of it has in its environment and hands on to its own.

A process of this beside the launcher waits until the launcher is gone, whatever ended that, and then does the same.
"""
import os
import signal
import subprocess
import sys
import threading
import time
import uuid

NAME = "BRIDGE_LAUNCHER_MARK"
# How long a process may take to end by itself, and how long it is looked for another that was just started, in seconds.
POLITE = 1
SETTLE = 0.2


def processes():
    return [int(name) for name in os.listdir("/proc") if name.isdigit()]


def is_marked(number, mark):
    """Whether a process has the mark. One that has ended and wasn't waited for has no environment."""
    try:
        with open("/proc/%d/environ" % number, "rb") as file:
            return b"%s=%s" % (NAME.encode(), mark.encode()) in file.read().split(b"\0")
    except OSError:
        return False


def signalled(mark, number):
    """Sends a signal to all that have the mark, and says how many those are."""
    count = 0
    for process in processes():
        if process != os.getpid() and is_marked(process, mark):
            try:
                handle = os.pidfd_open(process)
            except OSError:
                continue
            try:
                # The number may be that of another process by now: what has the mark behind the handle is the one.
                if is_marked(process, mark):
                    signal.pidfd_send_signal(handle, number)
                    count += 1
            except ProcessLookupError:
                pass
            finally:
                os.close(handle)
    return count


def end_all(mark, polite=POLITE):
    """Ends all that have the mark: by a request first, and then by force until none is left."""
    until = time.monotonic() + polite
    if polite and signalled(mark, signal.SIGTERM):
        while time.monotonic() < until and any(is_marked(process, mark) for process in processes()):
            time.sleep(0.02)
    while signalled(mark, signal.SIGKILL):
        time.sleep(0.02)


class Keeper:
    """The mark of a launcher, and the process that waits for the launcher's end. That is started again where it ends
    before, in a session of its own, so that a signal to the launcher's group spares it."""

    def __init__(self):
        self.mark = uuid.uuid4().hex
        self.is_ended = False
        self.start()
        threading.Thread(target=self.watch, daemon=True).start()

    def start(self):
        self.process = subprocess.Popen([sys.executable, os.path.abspath(__file__), self.mark], stdin=subprocess.PIPE,
                                        stdout=subprocess.DEVNULL, start_new_session=True)

    def watch(self):
        self.process.wait()
        while not self.is_ended:
            time.sleep(SETTLE)
            self.start()
            self.process.wait()

    def environment(self, more=None):
        """The environment of what is started, with these variables besides."""
        return {**os.environ, **(more or {}), NAME: self.mark}

    def end(self):
        """Ends all that was started, and then the process."""
        self.is_ended = True
        end_all(self.mark)
        self.process.stdin.close()


def main():
    mark = sys.argv[1]
    for number in (signal.SIGINT, signal.SIGTERM, signal.SIGHUP):
        signal.signal(number, signal.SIG_IGN)
    while os.read(0, 1):
        pass
    end_all(mark, 0)
    time.sleep(SETTLE)
    end_all(mark, 0)


if __name__ == "__main__":
    main()
