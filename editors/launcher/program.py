"""The Java program, as a `launch` names it: a class, a jar, a source, a test of a build tool, or another command."""
import codecs
import os
import re
import shlex
import shutil
import subprocess
import threading
import time
import zipfile
from collections import namedtuple
from functools import partial

from .bridge import Trouble

AGENT = "-agentlib:jdwp=transport=dt_socket,server=y,quiet=y,suspend=y,address=127.0.0.1:%d"
# The line that names a Java source's package.
PACKAGE = re.compile(r"^\s*package\s+([\w.]+)\s*;", re.MULTILINE)
# Where sources stand by the rules of build tools, and folders in which no module is looked for.
CONVENTIONS = [os.path.join("src", part, word) for part in ("main", "test") for word in ("java", "kotlin")]
PASSED_OVER = ("src", "target", "build", "out", "bin", "node_modules")
BUILDS = {"maven": ("pom.xml",), "gradle": ("build.gradle", "build.gradle.kts", "settings.gradle")}
# What has Gradle run its tests under the agent, one Java machine at a time, also where nothing has changed.
GRADLE = """allprojects {
    tasks.withType(Test) {
        jvmArgs '%s'
        maxParallelForks = 1
        outputs.upToDateWhen { false }
    }
}
"""

# What is run, where, with which variables, and the roots of its sources. One that runs on behind its Java machine may
# start another; of the others the class is named that begins.
Plan = namedtuple("Plan", "words folder variables roots has_more main", defaults=(None,))


def words_of(arguments, name):
    """A list of words, or a text that is cut into them as a shell does."""
    value = arguments.get(name) or []
    if isinstance(value, str):
        return shlex.split(value)
    if not isinstance(value, list):
        raise Trouble("%s has to be a list of words" % name)
    return [str(word) for word in value]


def tool(name):
    """The path of a tool of the JDK: of JAVA_HOME, else of the path."""
    home = os.environ.get("JAVA_HOME")
    found = (home and shutil.which(name, path=os.path.join(home, "bin"))) or shutil.which(name)
    if not found:
        raise Trouble("there is no %s: a JDK has to be in the path, or named by JAVA_HOME" % name)
    return found


def planned(arguments, port, scratch, environment, tell):
    """What a `launch` starts, for a debugger at this port. What it needs goes to a folder; what is run to make that has
    this environment."""
    folder = os.path.abspath(os.path.expanduser(arguments.get("cwd") or "."))
    if not os.path.isdir(folder):
        raise Trouble("there is no folder %s" % folder)
    variables = {str(name): str(value) for name, value in (arguments.get("env") or {}).items() if value is not None}
    agent = AGENT % port
    if arguments.get("run"):
        return commanded(arguments, agent, folder, variables)
    if "test" in arguments:
        return tested(arguments, agent, folder, variables, scratch)
    if not arguments.get("main"):
        raise Trouble("`launch` wants `main`, `test` or `run`: docs/EDITORS.md says what they name")
    compile_to = partial(compile_source, scratch, environment, tell)
    return started(arguments, agent, folder, variables, compile_to)


def started(arguments, agent, folder, variables, compile_to):
    """A class, a jar or a source, by the Java machine itself."""
    main, class_path = os.path.expanduser(str(arguments["main"])), joined(arguments, "classPath")
    path, roots = os.path.join(folder, main), usual_roots(folder)
    if main.endswith(".jar"):
        if not os.path.isfile(path):
            raise Trouble("there is no file %s" % path)
        program, name = ["-jar", path], class_of_jar(path)
    elif main.endswith(".java"):
        name, root = read_source(path)
        classes = compile_to(path, root, class_path)
        program = ["-cp", os.pathsep.join(filter(None, [classes, class_path])), name]
        roots = [root, *(other for other in usual_roots(folder) if other != folder)]
    else:
        program, name = ["-cp", class_path or ".", main], main
    words = [tool("java"), agent, *words_of(arguments, "vmArgs"), *program, *words_of(arguments, "args")]
    return Plan(words, folder, variables, roots, False, name)


def class_of_jar(path):
    """The class with which a jar begins, where its manifest names one."""
    try:
        with zipfile.ZipFile(path) as file:
            lines = file.read("META-INF/MANIFEST.MF").decode(errors="replace").replace("\r\n ", "").splitlines()
    except (KeyError, OSError, zipfile.BadZipFile):
        return None
    return next((line.partition(":")[2].strip() for line in lines if line.startswith("Main-Class:")), None)


def joined(arguments, name):
    value = arguments.get(name) or ""
    return value if isinstance(value, str) else os.pathsep.join(str(word) for word in value)


def usual_roots(folder):
    """The roots of a project by the rules of build tools, else `src`, else the folder itself."""
    return existing(folder, CONVENTIONS) or existing(folder, ["src"]) or [folder]


def existing(folder, names):
    return [path for path in (os.path.join(folder, name) for name in names) if os.path.isdir(path)]


def read_source(path):
    """The class of a source, and the root of its sources: the folder that its package stands in."""
    try:
        with open(path, encoding="utf-8", errors="replace") as file:
            package = PACKAGE.search(file.read())
    except OSError as trouble:
        raise Trouble("%s can't be read: %s" % (path, trouble.strerror)) from None
    folder, name = os.path.dirname(os.path.abspath(path)), os.path.splitext(os.path.basename(path))[0]
    if not package:
        return name, folder
    within = os.path.join(os.sep, *package[1].split("."))
    root = folder[: -len(within)] if folder.endswith(within) else folder
    return package[1] + "." + name, root or os.sep


def compile_source(scratch, environment, tell, path, root, class_path):
    """Compiles a source to a folder, and gives that."""
    words = [tool("javac"), "-g", "-d", scratch, "-sourcepath", root, *(["-cp", class_path] if class_path else [])]
    ran = subprocess.run([*words, path], env=environment, stdin=subprocess.DEVNULL, stdout=subprocess.PIPE,
                         stderr=subprocess.STDOUT, check=False)
    if ran.stdout:
        tell("output", "stderr", ran.stdout.decode(errors="replace"))
    if ran.returncode:
        raise Trouble("%s wasn't compiled" % path)
    return scratch


def commanded(arguments, agent, folder, variables):
    """Another command that starts a Java machine, which takes the agent from its environment."""
    given = variables.get("JAVA_TOOL_OPTIONS", os.environ.get("JAVA_TOOL_OPTIONS", ""))
    variables = {**variables, "JAVA_TOOL_OPTIONS": ("%s %s" % (given, agent)).strip()}
    return Plan(words_of(arguments, "run"), folder, variables, usual_roots(folder), True)


def tested(arguments, agent, folder, variables, scratch):
    """A test, or all, by the build tool of the folder."""
    kind = arguments.get("build") or next((kind for kind in BUILDS if is_built_by(kind, folder)), None)
    if kind not in BUILDS:
        raise Trouble("%s has no pom.xml and no build.gradle" % folder)
    words = (maven if kind == "maven" else gradle)(str(arguments["test"] or ""), agent, folder, scratch)
    words = [*words[:1], *words_of(arguments, "buildArgs"), *words[1:]]
    return Plan(words, folder, variables, module_roots(folder) or [folder], True)


def is_built_by(kind, folder):
    return any(os.path.isfile(os.path.join(folder, name)) for name in BUILDS[kind])


def build_tool(folder, wrapper, name):
    """The wrapper that the project has, else the tool that is installed."""
    path = os.path.join(folder, wrapper)
    found = path if os.access(path, os.X_OK) else shutil.which(name)
    if not found:
        raise Trouble("there is no %s in the path" % name)
    return found


def maven(test, agent, folder, _):
    chosen = ["-Dtest=" + test, "-DfailIfNoTests=false", "-Dsurefire.failIfNoSpecifiedTests=false"] if test else []
    return [build_tool(folder, "mvnw", "mvn"), "-B", "-Dmaven.surefire.debug=" + agent, *chosen, "test"]


def gradle(test, agent, folder, scratch):
    script = os.path.join(scratch, "agent.gradle")
    with open(script, "w", encoding="utf-8") as file:
        file.write(GRADLE % agent)
    # A class may be named without its package, which Gradle doesn't take in each version.
    patterns = [test, *([] if "." in test else ["*." + test])] if test else []
    chosen = [word for pattern in patterns for word in ("--tests", pattern.replace("#", "."))]
    return [build_tool(folder, "gradlew", "gradle"), "--no-daemon", "-I", script, "test", *chosen]


def module_roots(folder):
    """The roots of sources of a project and of its modules, down to three folders below it."""
    roots = []
    for path, names, _ in os.walk(folder):
        roots += existing(path, CONVENTIONS)
        is_deep = path[len(folder) :].count(os.sep) >= 3
        names[:] = [] if is_deep else sorted(name for name in names if name[0] != "." and name not in PASSED_OVER)
    return roots


def is_listened_at(port):
    """Whether somebody listens at a port, by the system's tables: the agent would take a connection for a debugger."""
    for name in ("/proc/net/tcp", "/proc/net/tcp6"):
        if os.path.exists(name):
            with open(name, encoding="ascii") as table:
                for row in list(table)[1:]:
                    _, local, _, state = row.split()[:4]
                    if state == "0A" and int(local.rpartition(":")[2], 16) == port:
                        return True
    return False


class Program:
    """What a plan starts. It tells what it prints, and its end, from threads of its own."""

    def __init__(self, plan, environment, tell):
        # It is left once the Java machine that was debugged has ended.
        self.plan, self.tell, self.is_left = plan, tell, False
        try:
            self.process = subprocess.Popen(plan.words, cwd=plan.folder, env=environment, stdin=subprocess.DEVNULL,
                                            stdout=subprocess.PIPE, stderr=subprocess.PIPE, start_new_session=True)
        except OSError as trouble:
            raise Trouble("%s can't be started: %s" % (plan.words[0], trouble.strerror)) from None
        pipes = {"stdout": self.process.stdout, "stderr": self.process.stderr}
        self.readers = [threading.Thread(target=self.read, args=pipe, daemon=True) for pipe in pipes.items()]
        for reader in self.readers:
            reader.start()
        threading.Thread(target=self.wait, daemon=True).start()

    def read(self, category, pipe):
        decoder = codecs.getincrementaldecoder("utf-8")("replace")
        for piece in iter(lambda: os.read(pipe.fileno(), 65536), b""):
            self.tell("output", category, decoder.decode(piece))
        self.tell("output", category, decoder.decode(b"", True))

    def wait(self):
        """Tells the end, once all is told that was printed. What another process prints later isn't waited for."""
        status = self.finish()
        self.tell("program_end", self, status if status >= 0 else 128 - status)

    def finish(self):
        status = self.process.wait()
        for reader in self.readers:
            reader.join(1)
        return status

    def listens(self, port, is_over):
        """Waits until a Java machine of it listens for a debugger at this port; whether it does."""
        while not is_over() and self.process.poll() is None:
            if is_listened_at(port):
                return True
            time.sleep(0.03)
        return False
