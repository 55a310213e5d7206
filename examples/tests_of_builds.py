#!/usr/bin/env python3
"""Stops a JUnit test that a build tool runs: by Maven's Surefire and by Gradle, both offline.

The launcher starts the build tool over a copy of examples/kitchen, stops in the class that the test calls, and goes on
to the end of the build. Then it starts it again, and the launcher is killed in the stop: nothing may be left running.
Maven itself is stopped, too, in a function.
What of Debian's packages is wanted: maven libsurefire-java libmaven-resources-plugin-java libmaven-compiler-plugin-java
gradle junit4. A build tool that isn't there is skipped.

usage: examples/tests_of_builds.py [PROGRAM]
"""
import os
import shutil
import sys
import tempfile
from functools import partial

from building import PATIENCE, plainly, program_of, tried
from java_machine import EXAMPLES, lacking
from launching import Editor, mark_of, nothing_is_left
from sessions import has_to_be, line_of

KITCHEN = os.path.join(EXAMPLES, "kitchen")
POT = os.path.join("src", "main", "java", "kitchen", "Pot.java")
TEST = os.path.join("src", "test", "java", "kitchen", "PotTest.java")
REPOSITORY = "/usr/share/maven-repo"
PLUGINS = ["org/apache/maven/plugins/maven-%s-plugin" % name for name in ("compiler", "resources", "surefire")]
# What each build tool wants to stay offline, and what has to be in the repository for it.
BUILDS = {
    "maven": ("mvn", ["-o", "-Dmaven.repo.local=" + REPOSITORY], [*PLUGINS, "junit/junit"]),
    "gradle": ("gradle", ["--offline"], ["junit/junit"]),
}


def stopped(editor, kind, folder):
    """The thread of a stop in the class that the test calls."""
    line = line_of(os.path.join("kitchen", POT), "return")
    arguments = {"test": "PotTest#aPotMakesSoup", "build": kind, "cwd": folder, "buildArgs": BUILDS[kind][1]}
    editor.begin("launch", arguments, [(os.path.join(folder, POT), [line])])
    thread = editor.stop()
    frames = editor.frames(thread)[:2]
    has_to_be("the frames", [(frame["name"], frame["source"]["path"]) for frame in frames],
              [("kitchen.Pot.soup", os.path.join(folder, POT)),
               ("kitchen.PotTest.aPotMakesSoup", os.path.join(folder, TEST))])
    return thread


def a_test_is_stopped(kind, program):
    with tempfile.TemporaryDirectory() as scratch:
        folder = shutil.copytree(KITCHEN, os.path.join(scratch, "kitchen"))
        with Editor(program) as editor:
            editor.ask("continue", {"threadId": stopped(editor, kind, folder)})
            has_to_be("how it ends", editor.ended(), (0, 0, "ended 0 done\n"))
        with Editor(program) as editor:
            stopped(editor, kind, folder)
            mark = mark_of(editor.process.pid)
            editor.process.kill()
            editor.process.wait(PATIENCE)
            return nothing_is_left(mark)


def maven_is_stopped(program):
    """Maven itself, a program of some thousand classes that another command starts, stops in a function."""
    with Editor(program) as editor:
        editor.ask("initialize", {"adapterID": "bridge"})
        editor.ask("launch", {"run": ["mvn", *BUILDS["maven"][1], "validate"], "cwd": KITCHEN})
        editor.event("initialized")
        listed = {"breakpoints": [{"name": "org.apache.maven.DefaultMaven.execute"}]}
        editor.ask("setFunctionBreakpoints", listed)
        editor.ask("configurationDone")
        thread = editor.stop("function breakpoint")
        frames = editor.frames(thread)
        has_to_be("the upper frame", frames[0]["name"], "org.apache.maven.DefaultMaven.execute")
        has_to_be("the lowest", frames[-1]["name"], "org.codehaus.plexus.classworlds.launcher.Launcher.main")
        has_to_be("what is shown of both", {frame["presentationHint"] for frame in frames}, {"subtle"})
        editor.ask("setFunctionBreakpoints", {"breakpoints": []})
        editor.ask("continue", {"threadId": thread})
        has_to_be("how it ends", editor.ended(), (0, 0, "ended 0 done\n"))
    return True


def lacking_for(kind):
    """What a build tool lacks here, or nothing."""
    tool, _, parts = BUILDS[kind]
    if not shutil.which(tool):
        return "there is no " + tool
    missing = [part for part in parts if not os.path.isdir(os.path.join(REPOSITORY, part))]
    return "%s has no %s" % (REPOSITORY, missing[0]) if missing else None


def main():
    why = lacking("java", "javac")
    cases = []
    for kind in BUILDS:
        lack = why or lacking_for(kind)
        if lack:
            print("%s skipped: %s" % (kind, lack))
        else:
            cases.append(kind)
    program = program_of(sys.argv[1:]) if cases else None
    calls = [("a_test_of_%s_is_stopped" % kind, partial(a_test_is_stopped, kind, program)) for kind in cases]
    if "maven" in cases:
        calls.append((maven_is_stopped.__name__, partial(maven_is_stopped, program)))
    return tried(calls)


if __name__ == "__main__":
    plainly(main)
