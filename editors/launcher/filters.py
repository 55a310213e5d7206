"""Steps that end in the library: which classes are of it, and how a `stepIn` goes on out of one."""
import fnmatch

# What stands for each class of which no root of sources has the file.
NO_SOURCE = "$noSource"
LIBRARY = ["java.*", "javax.*", "jdk.*", "sun.*", "com.sun.*", NO_SOURCE]
# How many steps one `stepIn` may become.
LONGEST = 200


class Filters:
    """Patterns of classes in which no `stepIn` ends, as `java.*`."""

    def __init__(self, patterns, sources):
        self.patterns = [pattern for pattern in patterns if pattern != NO_SOURCE]
        self.sources = sources if NO_SOURCE in patterns else None

    def leaves(self, frame):
        """Whether a step that ends in this frame goes on out of it."""
        name = frame["name"].rpartition(".")[0]
        if any(fnmatch.fnmatchcase(name, pattern) for pattern in self.patterns):
            return True
        return bool(self.sources) and "path" not in self.sources.placed(frame).get("source", {})


class Stepping:
    """A `stepIn` of a thread that is under way, from a frame that no filter names. A stand is a frame and how deep the
    stack is there."""

    def __init__(self, thread, start):
        self.thread = thread
        self.start = start
        self.left = LONGEST
        self.was_out = False

    def next_step(self, end, filters):
        """What goes on where a step has ended at this stand: out of a call that led into the library, and on from the
        line of the start behind that. None where the step is over."""
        self.left -= 1
        frame, deep = end
        if self.left and deep > self.start[1] and filters.leaves(frame):
            self.was_out = True
            return "stepOut"
        goes_on = self.left and self.was_out and place(end) == place(self.start)
        self.was_out = False
        return "stepIn" if goes_on else None


def place(stand):
    frame, deep = stand
    return deep, frame["name"], frame["line"]


def top(said):
    """The stand that a response to `stackTrace` shows; None where it fails or shows no frame."""
    body = said.get("body") or {}
    frames = body.get("stackFrames") if said.get("success") else None
    return (frames[0], body.get("totalFrames", 0)) if frames else None
