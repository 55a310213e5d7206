"""Where a frame's file stands. The bridge names that of the first root of sources, whether it is there or not."""
import os


class Sources:
    """The roots of sources, as absolute paths, each before those that it stands in: a file that stands in both has the
    key of its package in the inner one."""

    def __init__(self, roots):
        self.roots = []
        for root in roots:
            path = os.path.abspath(os.path.expanduser(root))
            if path not in self.roots:
                outer = [place for place, other in enumerate(self.roots) if path.startswith(within(other))]
                self.roots.insert(outer[0] if outer else len(self.roots), path)

    def placed(self, frame):
        """A frame whose source has the path of its file. Where no root has that, the source has no path and the frame
        is subtle, as one of the library is (DAP specification, Types, StackFrame)."""
        source = frame.get("source")
        if not isinstance(source, dict):
            return {**frame, "presentationHint": "subtle"}
        path = self.found(source.get("path") or "")
        if path:
            return {**frame, "source": {**source, "path": path}}
        rest = {name: value for name, value in source.items() if name != "path"}
        return {**frame, "source": {**rest, "presentationHint": "deemphasize"}, "presentationHint": "subtle"}

    def found(self, path):
        """The path of the file that a frame names, in the first root that has it; None where none does."""
        if os.path.isfile(path):
            return path
        for root in self.roots:
            if path.startswith(within(root)):
                key = path[len(within(root)) :]
                return next(filter(os.path.isfile, (os.path.join(other, key) for other in self.roots)), None)
        return None


def within(folder):
    """What the path of a file begins with that stands in a folder."""
    return folder.rstrip(os.sep) + os.sep
