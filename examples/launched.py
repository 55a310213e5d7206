#!/usr/bin/env python3
"""Sessions of the launcher, with no editor: what it starts, what it adds to the bridge, and that it leaves nothing.

- Each kind of a `launch`, its failures, and the end of the program.
- Files of frames in three roots, steps that end in the library, fractions, and the elements of collections.
- The numbers of a thousand requests, two sessions at one port, and two Java machines of one command.
- Each part is killed at each moment, and nothing is left running.

The Java program that it runs stands in examples/town. Where no JDK is there it says `skipped`.

usage: examples/launched.py [PROGRAM [CASE..]]

With names of cases it tries these alone.
"""
import os
import signal
import socket
import subprocess
import sys
import tempfile
import threading
import time
import zipfile
from functools import partial

from building import PATIENCE, TOP, plainly, program_of, tried
from java_machine import EXAMPLES, JavaProgram, lacking, tool
from java_machine import compiled as compiled_from
from launching import EDITORS, Editor, mark_of, nothing_is_left, parts_of, words_of
from over_tcp import CAPABILITIES, dial, free_port
from sessions import has_to_be, line_of

TOWN = os.path.join(EXAMPLES, "town")
ROOTS = [os.path.join(TOWN, name) for name in ("first", "second", "third")]
STREET, CUPBOARDS, HOUSE, ROOM = (os.path.join(ROOTS[place], "town", name + ".java") for place, name in
                                  ((0, "Town"), (0, "Cupboards"), (1, "House"), (2, "Room")))
PRINTED = ["2corner of 16", "2shed of 1", None, "ab120000150", "the end of the street"]
ENDED = "ended 0 done\n"
# What collections of three letters hold, and maps of them.
LETTERS = [("[0]", '"a"'), ("[1]", '"b"'), ("[2]", '"c"')]
COUNTED = [('"a"', "0"), ('"b"', "1"), ('"c"', "2")]
HELD = {
    **dict.fromkeys(("three", "array", "linked", "vector", "copied", "of3", "fixed", "ring", "heap"), LETTERS),
    **dict.fromkeys(("hashed", "ordered", "sorted"), LETTERS),
    "of2": LETTERS[:2], "only": LETTERS[:1], "set1": LETTERS[:1], "empty": [],
    "map": COUNTED, "shared": COUNTED, "kept": [('"c"', "0"), ('"a"', "1"), ('"b"', "2")],
    "tree": [('"a"', "1"), ('"b"', "2"), ('"c"', "0")], "map1": COUNTED[:1],
}
# These stand in no order that is promised.
UNORDERED = {"setOf3": ['"a"', '"b"', '"c"'], "mapOf3": [('"a"', "0"), ('"b"', "1"), ('"c"', "2")]}
FRACTIONS = ["0.1", "1.0E-5", "1.0E7", "-0.0", "100.0", "4.9E-324", "1.7976931348623157E308", "NaN", "-Infinity"]
FLOATS = ["0.1", "1.6777216E7", "3.4028235E38", "1.4E-45", "Infinity"]


def line(path, text):
    return line_of(os.path.relpath(path, EXAMPLES), text)


def launch(classes, *args, **more):
    return {"main": "town.Town", "classPath": classes, "sourceRoots": ROOTS, "args": list(args), **more}


def stopped(editor, arguments, path, text):
    """The frames of a stop at the line of this text."""
    editor.begin("launch", arguments, [(path, [line(path, text)])])
    return editor.frames(editor.stop())


def names(children):
    return [(child["name"], child["value"]) for child in children]


def kinds_of_programs_are_launched(program, classes):
    with tempfile.TemporaryDirectory() as folder:
        jar = os.path.join(folder, "town.jar")
        with zipfile.ZipFile(jar, "w") as file:
            file.writestr("META-INF/MANIFEST.MF", "Main-Class: town.Town\n")
            for name in os.listdir(os.path.join(classes, "town")):
                file.write(os.path.join(classes, "town", name), "town/" + name)
        java = [tool("java"), "-cp", classes, "town.Town"]
        for arguments in (launch(classes), {"main": jar, "sourceRoots": ROOTS}, {"run": java, "cwd": folder},
                          {"main": STREET, "classPath": classes}):
            with Editor(program) as editor:
                editor.begin("launch", arguments)
                ended = editor.ended()
                has_to_be("how %s ends" % arguments, ended, (0, 0, ENDED))
                printed = editor.printed().splitlines()
                has_to_be("what it prints", [printed[0], *printed[3:]], [PRINTED[0], *PRINTED[3:]])
    return True


def a_program_that_does_not_start_is_told_so(program, classes):
    with tempfile.TemporaryDirectory() as folder:
        source = os.path.join(folder, "Wrong.java")
        with open(source, "w", encoding="utf-8") as file:
            file.write("class Wrong { int number = none; }\n")
        for arguments, text in (
            ({}, "`launch` wants `main`, `test` or `run`"),
            ({"main": source}, "Wrong.java wasn't compiled"),
            ({"main": "none.jar"}, "there is no file"),
            ({"main": "A", "cwd": "/none"}, "there is no folder /none"),
            ({"test": "", "cwd": folder}, "has no pom.xml and no build.gradle"),
            ({"run": ["/none"]}, "can't be started"),
            ({"main": "A", "env": 5}, "has no attribute"),
            ({"main": "A", "args": 5}, "args has to be a list of words"),
            ({"run": ["true"]}, "ended before a Java machine of it could be debugged"),
            ({"run": ["sh", "-c", "echo its last words"]}, "ended before a Java machine of it could be debugged"),
        ):
            with Editor(program) as editor:
                editor.ask("initialize", {"adapterID": "bridge"})
                said = editor.tried("launch", arguments)
                has_to_be("the failure of %s: %r" % (arguments, said), (said["success"], text in said["message"]),
                          (False, True))
                if "run" in arguments and len(arguments["run"]) > 1:
                    has_to_be("what it printed", editor.printed(), "its last words\n")
                editor.event("terminated")
                has_to_be("its status", editor.process.wait(PATIENCE), 2)
    with Editor("/none") as editor:
        said = editor.tried("initialize", {"adapterID": "bridge"})
        has_to_be("whether `initialize` succeeds", said["success"], False)
    with Editor(program) as editor:
        editor.ask("initialize", {"adapterID": "bridge"})
        said = editor.tried("attach", {"target": "127.0.0.1:%d" % free_port(), "sourceRoots": ROOTS})
        has_to_be("whether `attach` succeeds", said["success"], False)
        ended = editor.process.wait(PATIENCE), editor.process.stderr.read()
        has_to_be("how it ends", ended, (7, b"ended 7 not opened\n"))
    return True


def the_end_is_told_behind_all_that_was_printed(program, classes):
    with Editor(program) as editor:
        editor.begin("launch", launch(classes, "0", "fails"))
        status = editor.event("exited")["exitCode"]
        has_to_be("the program's status", status, 3)
        has_to_be("what it printed last", editor.printed().splitlines()[-1], PRINTED[-1])
        has_to_be("its standard error", [each["body"]["output"] for each in editor.events if each["event"] == "output"
                                         and each["body"]["category"] == "stderr"], ["walked\n"])
        editor.event("terminated")
        has_to_be("how the launcher ends", editor.left(), (0, ENDED))
    return True


def a_program_is_stopped_as_it_begins(program, classes):
    functions = {"breakpoints": [{"name": "town.House.area"}]}
    with Editor(program) as editor:
        editor.ask("initialize", {"adapterID": "bridge"})
        editor.ask("launch", launch(classes, stopOnEntry=True))
        editor.event("initialized")
        has_to_be("a function's id", editor.ask("setFunctionBreakpoints", functions)["breakpoints"][0]["id"], 1)
        editor.ask("configurationDone")
        thread = editor.stop("entry")
        has_to_be("where it stops", editor.frames(thread)[0]["name"], "town.Town.main")
        told = [each["event"] for each in editor.events]
        has_to_be("whether a breakpoint is told that the editor doesn't know", "breakpoint" in told, False)
        editor.ask("setBreakpoints", {"source": {"path": ROOM}, "breakpoints": [{"line": line(ROOM, "return length")}]})
        editor.ask("continue", {"threadId": thread})
        body = editor.event("stopped", "terminated")
        has_to_be("the next stop", (body["reason"], body["hitBreakpointIds"]), ("function breakpoint", [1]))
        has_to_be("how it ends", editor.left(), (0, ENDED))
    return True


def frames_show_the_file_of_their_root(program, classes):
    with Editor(program) as editor:
        frames = stopped(editor, launch(classes), ROOM, "return length * width")
        shown = [(frame["name"], frame["source"].get("path") if "source" in frame else None,
                  frame.get("presentationHint")) for frame in frames]
        # The class of a lambda is made as the program runs, and has no file.
        own = [each for each in shown if each[0].startswith("town.") and "$$" not in each[0]]
        has_to_be("the frames of the town", own,
                  [("town.Room.area", ROOM, None), ("town.House.area", HOUSE, None),
                   ("town.Town.described", STREET, None), ("town.Town.walk", STREET, None),
                   ("town.Town.main", STREET, None)])
        library = {each[1:] for each in shown if each not in own}
        has_to_be("those of the library", library, {(None, "subtle")})
        has_to_be("how it ends", editor.left(), (0, ENDED))
    with Editor(program) as editor:
        frames = stopped(editor, launch(classes, findSources=False), ROOM, "return length * width")
        paths = [frame["source"]["path"] for frame in frames if frame["name"] == "town.House.area"]
        has_to_be("a path that isn't looked for", paths, [os.path.join(ROOTS[0], "town", "House.java")])
    return True


def steps_go_on_out_of_the_library(program, classes):
    for more, due in (({}, ["town.Town.described", "town.House.name"]), ({"stepFilters": []}, None),
                      ({"stepFilters": ["java.*", "town.House"]}, ["town.Town.described", "town.Town.walk"])):
        with Editor(program) as editor:
            stopped(editor, launch(classes, **more), STREET, "String line")
            found = []
            for _ in range(2):
                thread = editor.ask("threads")["threads"]
                thread = next(each["id"] for each in thread if each["name"] == "main")
                editor.ask("stepIn", {"threadId": thread})
                found.append(editor.frames(editor.stop("step"))[0]["name"])
            if due:
                has_to_be("where two steps end with %s" % more, found, due)
            else:
                has_to_be("where a step ends: %s" % found, found[0].startswith("java."), True)
    return True


def a_pause_ends_a_step(program, classes):
    """Also one that comes while the launcher looks where the step has led."""
    for delay in (0, 0.01, 0.03, 1):
        with Editor(program) as editor:
            stopped(editor, launch(classes, "60000"), STREET, "Thread.sleep")
            thread = next(each["id"] for each in editor.ask("threads")["threads"] if each["name"] == "main")
            editor.send("stepIn", {"threadId": thread})
            time.sleep(delay)
            editor.ask("pause", {"threadId": thread})
            has_to_be("the thread of the stop", editor.stop("pause"), thread)
    return True


def fractions_are_shown_in_decimal(program, classes):
    for more, third in (({}, "0.33333334"), ({"decimals": False}, "float:0x3eaaaaab")):
        with Editor(program) as editor:
            frames = stopped(editor, launch(classes, **more), CUPBOARDS, "System.out.println(third")
            shown, _ = editor.locals_of(frames[0])
            said = editor.ask("evaluate", {"expression": "third", "frameId": frames[0]["id"]})
            has_to_be("a third", (shown["third"]["value"], said["result"]), (third, third))
            if not more:
                for name, due in (("fractions", FRACTIONS), ("floats", FLOATS)):
                    children = editor.children(shown[name]["variablesReference"])
                    has_to_be(name, [child["value"] for child in children], due)
    return True


def collections_show_their_elements(program, classes):
    with Editor(program) as editor:
        frames = stopped(editor, launch(classes), CUPBOARDS, "System.out.println(array.get(0)")
        shown, _ = editor.locals_of(frames[0])
        for name, due in HELD.items():
            children = names(editor.children(shown[name]["variablesReference"]))
            has_to_be(name, children[: len(due)], due)
            has_to_be("whether %s has no element more" % name, children[len(due)][0][0] in '["', False)
        for name, due in UNORDERED.items():
            children = names(editor.children(shown[name]["variablesReference"]))[: len(due)]
            has_to_be(name, sorted(children if name == "mapOf3" else [value for _, value in children]), due)
        large_ones_show_windows(editor, shown)
        elements_are_set(editor, shown)
    with Editor(program) as editor:
        frames = stopped(editor, launch(classes, collections=False), CUPBOARDS, "System.out.println(array.get(0)")
        shown, _ = editor.locals_of(frames[0])
        children = names(editor.children(shown["array"]["variablesReference"]))
        has_to_be("a list with the switch off", [name for name, _ in children], ["elementData", "size", "modCount"])
    return True


def large_ones_show_windows(editor, shown):
    children = editor.children(shown["many"]["variablesReference"])
    has_to_be("the windows of a large one", [child["name"] for child in children[:3]],
              ["[0..9999]", "[10000..19999]", "elementData"])
    inner = editor.children(children[1]["variablesReference"])
    has_to_be("the windows in a window", (len(inner), inner[50]["name"]), (100, "[15000..15099]"))
    elements = editor.children(inner[50]["variablesReference"])
    has_to_be("its elements", (len(elements), elements[7]["name"]), (100, "[15007]"))
    has_to_be("one of them", elements[7]["value"], "15007")
    has_to_be("what is in it", names(editor.children(elements[7]["variablesReference"])), [("value", "15007")])
    windows = editor.children(shown["chain"]["variablesReference"])[:2]
    last = editor.children(windows[1]["variablesReference"])
    has_to_be("the last of a chain", (len(last), last[-1]["name"]), (50, "[149]"))
    (pair,) = editor.children(shown["keyed"]["variablesReference"])[:1]
    has_to_be("a key with children", (pair["name"], pair["value"].partition("@")[0]),
              ("[0]", "java.util.Arrays$ArrayList"))
    key, value = editor.children(pair["variablesReference"])
    has_to_be("what it holds", names(editor.children(key["variablesReference"]))[:3], LETTERS)
    has_to_be("its value's class", value["value"].partition("@")[0], "7")


def elements_are_set(editor, shown):
    """An element and a map's value are set where they stand; what is set then is shown."""
    for name, element in (("array", "[1]"), ("map", '"b"'), ("tree", '"b"'), ("linked", "[2]")):
        reference = shown[name]["variablesReference"]
        editor.children(reference)
        editor.ask("setVariable", {"variablesReference": reference, "name": element, "value": "null"})
        has_to_be("what was set in %s" % name, dict(names(editor.children(reference)))[element], "null")
    reference = shown["hashed"]["variablesReference"]
    said = editor.tried("setVariable", {"variablesReference": reference, "name": "[0]", "value": "null"})
    has_to_be("whether a key is set", said["success"], False)


def numbers_are_right_over_1000_requests(program, classes):
    with Editor(program) as editor:
        stopped(editor, launch(classes), STREET, "String line")
        thread = next(each["id"] for each in editor.ask("threads")["threads"] if each["name"] == "main")
        asked = (("threads", None), ("stackTrace", {"threadId": thread}), ("modules", {}), ("evaluate", {
            "expression": "street", "frameId": editor.frames(thread)[0]["id"]}), ("scopes", {"frameId": 1}))
        before = editor.heard
        for number in range(1000):
            editor.send(*asked[number % len(asked)])
        succeeds = [editor.answer()["success"] for _ in range(1000)]
        has_to_be("how many succeed", succeeds.count(True), 800)
        has_to_be("how many messages came", editor.heard - before, 1000)
        editor.ask("continue", {"threadId": thread})
        editor.stop()
        has_to_be("how it ends", editor.left(), (0, ENDED))
    return True


def sessions_follow_each_other_at_a_port(program, classes):
    port = free_port()
    with Editor(program, "--listen", str(port)) as editor:
        for _ in range(2):
            link = dial(port, editor.process)
            editor.connect(link.sendall, link.recv)
            frames = stopped(editor, launch(classes), STREET, "String line")
            has_to_be("where it stops", frames[0]["name"], "town.Town.walk")
            editor.ask("disconnect")
            link.close()
        # One that goes away without a word leaves nothing, either.
        dial(port).close()
        link = dial(port)
        editor.connect(link.sendall, link.recv)
        has_to_be("what it can", editor.ask("initialize", {"adapterID": "bridge"}), CAPABILITIES)
        link.shutdown(socket.SHUT_RDWR)
        mark = mark_of(editor.process.pid)
        editor.process.terminate()
        has_to_be("the launcher's status", editor.process.wait(PATIENCE), 128 + signal.SIGTERM)
        has_to_be("what both bridges said", editor.process.stderr.read().decode(), 2 * ENDED)
        return nothing_is_left(mark)


def java_machines_of_a_command_are_one_session(program, classes):
    java = "%s -cp %s town.Town" % (tool("java"), classes)
    with Editor(program) as editor:
        command = ["sh", "-c", "%s && %s && exit 5" % (java, java)]
        lines = (line(STREET, "Cupboards.look()"), line(STREET, "the end of the street"))
        editor.begin("launch", {"run": command, "sourceRoots": ROOTS}, [(STREET, lines)])
        for ids in ([1], [2], [1], [2]):
            body = editor.event("stopped", "terminated")
            has_to_be("the breakpoint", body.get("hitBreakpointIds"), ids)
            editor.ask("continue", {"threadId": body["threadId"]})
        has_to_be("how it ends", editor.ended(), (5, 0, 2 * ENDED))
    return True


def a_target_that_goes_is_told(program, _):
    """One that takes each link and closes it, as a forwarding does behind which nobody listens."""
    with socket.create_server(("127.0.0.1", 0)) as listener, Editor(program) as editor:
        threading.Thread(target=close_links, args=(listener,), daemon=True).start()
        editor.ask("initialize", {"adapterID": "bridge"})
        target = "127.0.0.1:%d" % listener.getsockname()[1]
        said = editor.tried("attach", {"target": target, "sourceRoots": ROOTS})
        has_to_be("the failure", (said["success"], said["message"]), (False, "targetGone"))
        has_to_be("the event behind it", editor.event("terminated"), {})
        has_to_be("how it ends", editor.left(), (0, ENDED))
    return True


def close_links(listener):
    try:
        while True:
            listener.accept()[0].close()
    except OSError:
        pass


def a_relay_adds_nothing(program, _):
    with tempfile.TemporaryDirectory() as folder, JavaProgram(compiled_from(folder)) as java:
        java.wait_until_up()
        target = "127.0.0.1:%d" % java.port
        with Editor(program, "--target", target, script=os.path.join(EDITORS, "relay.py")) as editor:
            has_to_be("what it can", editor.ask("initialize", {"adapterID": "bridge"}), CAPABILITIES)
            said = editor.tried("attach", {"sourceRoots": []})
            has_to_be("a failure of the bridge", said["body"]["error"]["format"], "badArguments sourceRoots")
            editor.begin("attach", {"sourceRoots": [TOP]})
            has_to_be("a thread", "first worker" in [each["name"] for each in editor.ask("threads")["threads"]], True)
            has_to_be("how it ends", editor.left(), (0, ENDED))
        with Editor(program, "--target", target, script=os.path.join(EDITORS, "relay.py")) as editor:
            editor.begin("attach", {"sourceRoots": [TOP]})
            editor.process.stdin.close()
            has_to_be("its status where it is left", editor.process.wait(PATIENCE), 1)
            has_to_be("what the bridge said", editor.process.stderr.read(), b"ended 1 left\n")
        java.go_on()
        has_to_be("the status of the Java program", java.end()[1], 0)
    return True


def a_session_is_recorded(program, classes):
    with tempfile.TemporaryDirectory() as folder:
        path = os.path.join(folder, "town.log")
        with Editor(program, "--record", path) as editor:
            editor.begin("launch", launch(classes))
            has_to_be("how it ends", editor.ended(), (0, 0, ENDED))
        with open(path, "rb") as file:
            recorded = file.read()
        played = subprocess.run([program, "replay", path], stdin=subprocess.DEVNULL, stdout=subprocess.PIPE,
                                timeout=PATIENCE, check=False)
        return (played.stdout, played.returncode) == (recorded, 0)


def part(mark, name):
    """The process of this part of a session, where there is one."""
    started, keepers = parts_of(mark)
    if name == "keeper":
        return keepers[0] if keepers else None
    word = {"bridge": b"serve", "java": b"town.Town"}[name]
    return next((each for each in started if word in words_of(each)), None)


def up_to(editor, moment, classes):
    """Leads a session up to this moment."""
    editor.ask("initialize", {"adapterID": "bridge"})
    if moment == "begun":
        return
    editor.send("launch", launch(classes, "60000"))
    if moment == "starting":
        return
    editor.answer()
    editor.event("initialized")
    if moment == "attached":
        return
    at = line(STREET, "Cupboards.look()")
    editor.ask("setBreakpoints", {"source": {"path": STREET}, "breakpoints": [{"line": at}]})
    editor.ask("configurationDone")
    thread = editor.stop()
    if moment == "running":
        editor.ask("continue", {"threadId": thread})


def kill(editor, mark, name):
    """Kills a part, once it is there; whether it was."""
    until = time.monotonic() + 2
    while time.monotonic() < until:
        process = editor.process.pid if name == "launcher" else part(mark, name)
        if process:
            os.kill(process, signal.SIGKILL)
            return True
        time.sleep(0.005)
    return False


def a_kill_leaves_nothing(name, moment, program, classes):
    with Editor(program) as editor:
        mark = mark_of(editor.process.pid)
        up_to(editor, moment, classes)
        if not kill(editor, mark, name):
            has_to_be("whether %s has a %s" % (moment, name), moment, "begun")
        if name in ("launcher", "bridge"):
            while name == "bridge" and moment != "begun" and editor.reader.message():
                pass
        else:
            editor.process.stdin.close()
        if name == "bridge" and moment == "begun":
            editor.process.terminate()
        editor.process.wait(PATIENCE)
        return nothing_is_left(mark)


CASES = (kinds_of_programs_are_launched, a_program_that_does_not_start_is_told_so,
         the_end_is_told_behind_all_that_was_printed, a_program_is_stopped_as_it_begins,
         frames_show_the_file_of_their_root,
         steps_go_on_out_of_the_library, a_pause_ends_a_step, fractions_are_shown_in_decimal,
         collections_show_their_elements, numbers_are_right_over_1000_requests, sessions_follow_each_other_at_a_port,
         java_machines_of_a_command_are_one_session, a_target_that_goes_is_told, a_relay_adds_nothing,
         a_session_is_recorded)
MOMENTS = ("begun", "starting", "attached", "stopped", "running")


def cases(program, classes):
    """All cases, each a name and a call."""
    for case in CASES:
        yield case.__name__, partial(case, program, classes)
    for name in ("launcher", "keeper", "bridge", "java"):
        for moment in MOMENTS:
            case = partial(a_kill_leaves_nothing, name, moment, program, classes)
            yield "%s_is_killed_when_%s" % (name, moment), case


def main():
    why = lacking("java", "javac")
    if why:
        print("launched skipped: %s" % why)
        return 0
    program = program_of(sys.argv[1:])
    with tempfile.TemporaryDirectory() as folder:
        words = [tool("javac"), "-g", "-d", folder, STREET, CUPBOARDS, HOUSE, ROOM]
        subprocess.run(words, stdin=subprocess.DEVNULL, timeout=PATIENCE, check=True)
        return tried(each for each in cases(program, folder) if each[0] in (sys.argv[2:] or [each[0]]))


if __name__ == "__main__":
    plainly(main)
