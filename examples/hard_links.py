#!/usr/bin/env python3
"""The program over links as they come, and on words that aren't its own: each case runs it, and is kept or broken.

- A client that comes 3 s after the program, which takes next to no time of a processor meanwhile, and a target that
  dropped its link, on which nothing went, after 2 s.
- A connection that probes the client's port and closes without a byte, before the client comes.
- Twenty connections that stay open and say nothing, before the client comes; and a client that speaks late, with
  fifteen silent ones behind it.
- A target that resets its link with bytes under way, which is its end: the client is told so, also where the program
  sends before it reads of the reset. A client that resets its link, which is its end, too.
- Requests that come byte by byte; a request of a million bytes, whose answer, as long, is read late.
- Answers to a client that sent more behind its `disconnect`, and reads late: all of them come.
- The end of the session at a fault of the target, while the client goes on sending: the client is told.
- The last command to a target that goes on sending: it comes, and the link ends without a reset.
- Peers that neither close their links nor say more behind the end of the session: the program ends all the same.
- Links on which nothing comes for some seconds, also once the target has ended: the program takes next to no time of a
  processor meanwhile.
- Words that aren't UTF-8, and a word too many: the usage line.
- A standard output that takes only the front of the line: its status.
- A standard stream that is closed: nothing is opened.
- The program in the background of a terminal: it isn't stopped.

usage: examples/hard_links.py [PROGRAM]
"""
import os
import pty
import resource
import signal
import socket
import struct
import subprocess
import sys
import tempfile
import threading
import time
from functools import partial

from building import PATIENCE, USAGE, plainly, program_of, tried
from many_threads import ATTACH, HANDSHAKE, receive, reply
from over_tcp import (INITIALIZED, DISCONNECTED, Bridge, Client, dial, event, failure, request, response,
                      unsupported)

TERMINATED = b'{"event":"terminated","seq":2,"type":"event"}'
DISPOSE = struct.pack(">IIBBB", 11, 4, 0, 1, 6)
# The header of a composite of 48 MiB, which isn't whole before all else is over.
LONG_COMPOSITE = struct.pack(">IIBBB", 48 * 1024 * 1024, 1, 0, 64, 100)
# how many bytes of a line a file takes that takes no more
FRONT = 5
# how many seconds nothing comes, and how many of them a program that waits may take of a processor
SILENCE = 3
IDLE = 0.3


def two_requests(client, by=None):
    client.send(request(1, "initialize", {"adapterID": "jdwp"}), by)
    first = client.receive()
    client.send(request(2, "disconnect"), by)
    return [first, client.receive()] == [INITIALIZED, DISCONNECTED]


def late_client(bridge):
    before = processor_time(bridge.process)
    time.sleep(2)
    bridge.target.close()
    time.sleep(1)
    is_calm = processor_time(bridge.process) - before < IDLE
    return is_calm and two_requests(bridge.client()) and bridge.status() == 0


def probed_port(bridge):
    dial(bridge.port).close()
    time.sleep(0.1)
    return two_requests(bridge.client()) and bridge.status() == 0


def silent_connections(bridge):
    silent = dialled(bridge.port, 20)
    time.sleep(0.1)
    kept = two_requests(bridge.client()) and bridge.status() == 0
    return kept and len(silent) == 20


def late_speaker(bridge):
    client, *silent = dialled(bridge.port, 16)
    time.sleep(0.1)
    return two_requests(Client(client)) and bridge.status() == 0 and len(silent) == 15


def dialled(port, count):
    """So many connections, one after the other."""
    return [dial(port) for _ in range(count)]


def reset_by_target(bridge):
    client = bridge.client()
    client.send(request(1, "initialize", {"adapterID": "jdwp"}))
    first = client.receive()
    bridge.target.sendall(HANDSHAKE + b"\0\0")
    reset(bridge.target)
    told = client.receive()
    client.send(request(2, "disconnect"))
    wanted = [INITIALIZED, TERMINATED, DISCONNECTED.replace(b'"seq":2', b'"seq":3')]
    return [first, told, client.receive()] == wanted and bridge.status() == 0


def reset_before_a_send(bridge):
    client = attached(bridge)
    # The last thing came from the target: where both have something, the client is heard first.
    bridge.process.send_signal(signal.SIGSTOP)
    os.waitpid(bridge.process.pid, os.WUNTRACED)
    reset(bridge.target)
    client.send(request(3, "threads"))
    bridge.process.send_signal(signal.SIGCONT)
    told = [client.receive(), client.receive()]
    client.send(request(4, "disconnect"))
    wanted = [failure(4, 3, "threads", 10, "targetGone"), event(5, "terminated"), response(6, 4, "disconnect")]
    return [*told, client.receive()] == wanted and bridge.status() == 0


def reset_by_client(bridge):
    client = bridge.client()
    client.send(request(1, "initialize", {"adapterID": "jdwp"}))
    first = client.receive()
    reset(client.stream)
    bridge.target.close()
    return first == INITIALIZED and bridge.status() == 1


def reset(stream):
    """Closes a stream so that its peer is sent a reset."""
    stream.setsockopt(socket.SOL_SOCKET, socket.SO_LINGER, struct.pack("ii", 1, 0))
    stream.close()


def byte_by_byte(bridge):
    return two_requests(bridge.client(), by=1) and bridge.status() == 0


def long_messages(bridge):
    client = bridge.client()
    name = "x" * 1000000
    client.send(request(1, name))
    time.sleep(0.5)
    answer = client.receive()
    client.send(request(2, "disconnect"))
    return [answer, client.receive()] == [unsupported(1, 1, name), DISCONNECTED] and bridge.status() == 0


def more_behind_disconnect(bridge):
    client = bridge.client()
    for seq in range(1, 51):
        client.send(request(seq, "x" * 4000))
    client.send(request(51, "disconnect"))
    client.stream.sendall(b"." * 130000)
    time.sleep(0.5)
    answers = [client.receive() for _ in range(51)]
    return is_ended(client.stream) and b'"request_seq":51' in answers[50] and bridge.status() == 0


def end_under_load(bridge):
    client = bridge.client()
    client.send(request(1, "initialize", {"adapterID": "jdwp"}))
    first = client.receive()
    is_told = threading.Event()
    load = threading.Thread(target=send_until, args=(client.stream, is_told, b"Content-Length: 16000000\r\n\r\n "))
    load.start()
    time.sleep(0.1)
    bridge.target.sendall(b"no handshake")
    time.sleep(0.2)
    told = client.receive()
    is_told.set()
    load.join()
    client.stream.shutdown(socket.SHUT_WR)
    return [first, told] == [INITIALIZED, TERMINATED] and is_ended(client.stream) and bridge.status() == 4


def last_command(bridge):
    client = attached(bridge)
    is_gone = threading.Event()
    load = threading.Thread(target=send_until, args=(bridge.target, is_gone, LONG_COMPOSITE))
    load.start()
    client.close()
    time.sleep(0.3)
    is_gone.set()
    load.join()
    bridge.target.shutdown(socket.SHUT_WR)
    return bridge.heard_by_target() == DISPOSE and bridge.status() == 1


def peers_that_stay(bridge):
    client = attached(bridge)
    client.stream.sendall(b"\r")
    return bridge.status() == 3 and receive(bridge.target, len(DISPOSE)) == DISPOSE


def silent_links(bridge):
    client = attached(bridge)
    is_calm = is_idle(bridge.process)
    bridge.target.close()
    client.receive()
    is_calm = is_idle(bridge.process) and is_calm
    client.send(request(3, "disconnect"))
    client.receive()
    return is_calm and bridge.status() == 0


def is_idle(process):
    """Whether a process takes next to no time of a processor while nothing comes."""
    before = processor_time(process)
    time.sleep(SILENCE)
    return processor_time(process) - before < IDLE


def processor_time(process):
    """How many seconds of a processor a process took so far (proc(5), utime and stime)."""
    with open("/proc/%d/stat" % process.pid, encoding="ascii") as file:
        fields = file.read().rpartition(")")[2].split()
    return (int(fields[11]) + int(fields[12])) / os.sysconf("SC_CLK_TCK")


def attached(bridge):
    """A client that has attached to the target."""
    client = bridge.client()
    client.send(request(1, "initialize", {"adapterID": "jdwp"}))
    client.receive()
    client.send(request(2, "attach", ATTACH))
    bridge.target.sendall(receive(bridge.target, len(HANDSHAKE)))
    for _ in range(3):
        answer_next(bridge.target)
    for _ in range(2):
        client.receive()
    return client


def answer_next(target):
    """Replies to the next command, as a target of one thread does."""
    packet = receive(target, 11)
    packet += receive(target, struct.unpack_from(">I", packet)[0] - 11)
    target.sendall(reply(packet, 1))


def send_until(stream, is_over, piece):
    """Sends the piece, and its last byte again and again, until it is over or the link is gone."""
    try:
        stream.sendall(piece)
        while not is_over.is_set():
            stream.sendall(piece[-1:] * 10000)
            time.sleep(0.001)
    except OSError:
        pass


def is_ended(stream):
    """Whether a stream ends here, and isn't reset."""
    return stream.recv(1) == b""


def words_of_other_bytes(program):
    return is_usage([program, b"serve", b"--listen", b"127.0.0.1:\xff", b"--target", b"127.0.0.1:1"])


def one_word_more(program):
    return is_usage([program, "serve", "--listen", "127.0.0.1:0", "--target", "127.0.0.1:1", "more"])


def cut_line(program):
    with tempfile.TemporaryFile() as output:
        ran = subprocess.run([program], stdin=subprocess.DEVNULL, stdout=output, stderr=subprocess.DEVNULL,
                             preexec_fn=limit_files, timeout=PATIENCE, check=False)
        return ran.returncode == 9 and os.fstat(output.fileno()).st_size == FRONT


def limit_files():
    """Lets this process write no more than a few bytes to a file, and be told so by an error."""
    signal.signal(signal.SIGXFSZ, signal.SIG_IGN)
    resource.setrlimit(resource.RLIMIT_FSIZE, (FRONT, FRONT))


def closed_input(program):
    return opens_nothing(program, 0)


def closed_output(program):
    return opens_nothing(program, 1)


def closed_error(program):
    return opens_nothing(program, 2)


def opens_nothing(program, closed):
    """Whether the program ends with status 9, and no link, where this descriptor is closed."""
    with socket.create_server(("127.0.0.1", 0)) as target:
        command = 'exec "$0" serve --listen 127.0.0.1:0 --target 127.0.0.1:%d %d>&-' % (target.getsockname()[1], closed)
        ran = subprocess.run(["sh", "-c", command, program], stdin=subprocess.DEVNULL, stdout=subprocess.DEVNULL,
                             timeout=PATIENCE, check=False)
        target.settimeout(0)
        try:
            target.accept()
        except BlockingIOError:
            return ran.returncode == 9
    return False


def in_the_background(program):
    leader, terminal = pty.fork()
    if leader == 0:
        lead(program)
    heard = b""
    try:
        for piece in iter(lambda: os.read(terminal, 1000), b""):
            heard += piece
    except OSError:
        pass
    os.waitpid(leader, 0)
    return heard == b"ended 7 not opened\r\n"


def lead(program):
    """Runs the program as a shell does in the background, and ends this process when it has ended or was stopped."""
    job = os.fork()
    if job == 0:
        os.setpgid(0, 0)
        os.execv(program, [program, "serve", "--listen", "127.0.0.1:0", "--target", "127.0.0.1:1"])
    _, status = os.waitpid(job, os.WUNTRACED)
    if os.WIFSTOPPED(status):
        os.kill(job, signal.SIGKILL)
    os._exit(0)


def is_usage(command):
    ran = subprocess.run(command, stdin=subprocess.DEVNULL, stdout=subprocess.PIPE, stderr=subprocess.STDOUT,
                         timeout=PATIENCE, check=False)
    return ran.returncode == 2 and ran.stdout == USAGE.encode()


LINKS = (late_client, probed_port, silent_connections, late_speaker, reset_by_target, reset_before_a_send,
         reset_by_client, byte_by_byte, long_messages, more_behind_disconnect, end_under_load, last_command,
         peers_that_stay, silent_links)
ALONE = (words_of_other_bytes, one_word_more, cut_line, closed_input, closed_output, closed_error,
         in_the_background)


def over_links(case, program):
    with Bridge(program) as bridge:
        return case(bridge)


def main():
    program = program_of(sys.argv[1:])
    runs = [(case, over_links, (case, program)) for case in LINKS] + [(case, case, (program,)) for case in ALONE]
    return tried((case.__name__, partial(run, *given)) for case, run, given in runs)


if __name__ == "__main__":
    plainly(main)
