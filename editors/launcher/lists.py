"""What an editor has set of breakpoints, so that a second bridge is told the same, and their ids."""
from .wire import arguments_of, request

LISTED = ("setBreakpoints", "setFunctionBreakpoints", "setExceptionBreakpoints")


class Lists:
    """The last list of each kind and source, and the ids by which the editor knows what is in it."""

    def __init__(self):
        self.arguments = {}
        self.ids = {}
        self.known = {}
        self.last = 0
        # The bridge's id of the function in which the program is stopped as it begins.
        self.entry = None

    def asked(self, message):
        """Keeps a list that is asked for, and gives the key under which it is kept."""
        arguments = message.get("arguments")
        source = arguments.get("source") if isinstance(arguments, dict) else None
        key = message["command"], source.get("path") if isinstance(source, dict) else None
        self.arguments[key] = arguments
        return key

    def told(self, key, said):
        """A response to a list, with the ids of the editor."""
        listed = (said.get("body") or {}).get("breakpoints") if said.get("success") else None
        if not listed:
            return said
        listed = [self.named(breakpoint) for breakpoint in listed]
        self.ids[key] = [breakpoint.get("id") for breakpoint in listed]
        return {**said, "body": {**said["body"], "breakpoints": listed}}

    def named(self, breakpoint):
        """A breakpoint with the id of the editor."""
        return {**breakpoint, "id": self.id_of(breakpoint["id"])} if "id" in breakpoint else breakpoint

    def id_of(self, number):
        """The editor's id of one of the bridge's."""
        if number not in self.known:
            self.last += 1
            self.known[number] = self.last
        return self.known[number]

    def entering(self, message, name):
        """A list of functions with one more, at its end."""
        arguments = dict(arguments_of(message))
        given = arguments.get("breakpoints")
        arguments["breakpoints"] = [*(given if isinstance(given, list) else []), {"name": name}]
        return request("setFunctionBreakpoints", arguments)

    def entered(self, said):
        """The response to such a list, without that one, whose id is kept."""
        listed = (said.get("body") or {}).get("breakpoints") if said.get("success") else None
        if not listed:
            return said
        self.entry = listed[-1].get("id")
        return {**said, "body": {**said["body"], "breakpoints": listed[:-1]}}

    def functions(self):
        """The functions as the editor has set them: a generator, as the next one."""
        key = "setFunctionBreakpoints", None
        return self.relisted(key, (yield request(key[0], self.arguments.get(key) or {"breakpoints": []})))

    def relisted(self, key, said):
        """The breakpoints of a list that was told again, with the ids under which the editor knows them."""
        found = ((said.get("body") or {}).get("breakpoints") or []) if said.get("success") else []
        self.known.update((each["id"], known) for each, known in zip(found, self.ids.get(key, [])) if "id" in each)
        return [self.named(breakpoint) for breakpoint in found]

    def again(self):
        """Tells a second bridge all lists: a generator that gives the requests, and is sent the responses. Gives the
        breakpoints as they stand there."""
        self.known, listed = {}, []
        for key, arguments in list(self.arguments.items()):
            listed += self.relisted(key, (yield request(key[0], arguments)))
        return listed
