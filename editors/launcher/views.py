"""What an editor is shown of values: fractions in decimal, and the elements of collections among the children."""
from collections import namedtuple

from .decimals import decimal
from .elements import KINDS, Unlike, class_of, fields_of, unboxed
from .wire import arguments_of, failed, request, succeeded

# The numbers under which things are told that the bridge doesn't know go down from here; its own go up from 1.
LAST = 2**31 - 1
# How many elements, or windows of them, are shown side by side.
MANY = 100

# Some elements of a collection: its kind, its fields and its reference, and their places.
Window = namedtuple("Window", "kind fields reference start end")


class Views:
    """The numbers of one stop: which are collections, what stands under those of its own, and where a child that isn't
    the bridge's is set."""

    def __init__(self, has_decimals, has_elements):
        self.has_decimals, self.has_elements = has_decimals, has_elements
        self.next = LAST
        self.forget()

    def forget(self):
        """The stop is over."""
        self.classes, self.own, self.places = {}, {}, {}

    def shown(self, variable):
        """A variable as the editor is shown it, or the body of a response that has a value."""
        name = class_of(variable)
        if name in KINDS:
            self.classes[variable["variablesReference"]] = name
        text = "result" if "result" in variable else "value"
        if not self.has_decimals or not isinstance(variable.get(text), str):
            return variable
        return {**variable, text: decimal(variable[text])}

    def value(self, said):
        """A response that has a value."""
        return {**said, "body": self.shown(said["body"])} if said.get("success") and said.get("body") else said

    def number(self, thing):
        self.next -= 1
        self.own[self.next + 1] = thing
        return self.next + 1

    def variables(self, message):
        """The response to `variables`: a generator, as those of elements."""
        arguments = arguments_of(message)
        reference = arguments.get("variablesReference")
        if not isinstance(reference, int):
            return (yield message)
        if reference in self.own:
            return succeeded({"variables": (yield from self.children_of(reference))})
        said = yield message
        if not said.get("success"):
            return said
        told = [self.shown(variable) for variable in said["body"]["variables"]]
        is_whole = arguments.get("filter") != "indexed" and not arguments.get("start") and not arguments.get("count")
        if self.has_elements and is_whole and reference in self.classes:
            told = (yield from self.elements(reference)) + told
        return {**said, "body": {**said["body"], "variables": told}}

    def elements(self, reference):
        """The elements of a collection, and none of one that is laid out in another way."""
        kind = KINDS[self.classes[reference]]
        try:
            fields = yield from fields_of(reference)
            size = yield from kind.size(fields, reference)
            return (yield from self.children(Window(kind, fields, reference, 0, size), reference))
        except Unlike:
            return []

    def children_of(self, reference):
        """What stands under a number of its own: some elements, or a key and its value."""
        thing = self.own[reference]
        if isinstance(thing, Window):
            try:
                return (yield from self.children(thing, reference))
            except Unlike:
                return []
        if thing.reference:
            self.places[reference, "value"] = thing.reference, thing.name
        return [{**self.shown(thing.key), "name": "key"}, {**self.shown(thing.told), "name": "value"}]

    def children(self, window, parent):
        """The elements of a window, or windows of them where these are many."""
        kind, fields, reference, start, end = window
        size = 1
        while end - start > size * MANY:
            size *= MANY
        if size > 1:
            parts = [Window(kind, fields, reference, at, min(at + size, end)) for at in range(start, end, size)]
            return [self.part(part) for part in parts]
        children = []
        for place, item in enumerate((yield from kind.items(fields, reference, start, end))):
            key = item.key and (yield from unboxed(item.key))
            item = item._replace(told=(yield from unboxed(item.told)), key=key)
            children.append(self.child(item, start + place, parent))
        return children

    def part(self, window):
        name = "[%d..%d]" % (window.start, window.end - 1)
        return {"name": name, "value": "%d elements" % (window.end - window.start), "variablesReference":
                self.number(window)}

    def child(self, item, index, parent):
        """An element under its index; of a map a value under its key, or both under an index where the key has
        children."""
        told, name = self.shown(item.told), "[%d]" % index
        if item.key:
            key = self.shown(item.key)
            if class_of(key):
                text = "%s = %s" % (key["value"], told["value"])
                return {"name": name, "value": text, "variablesReference": self.number(item)}
            name = key["value"]
        if item.reference:
            self.places[parent, name] = item.reference, item.name
        return {**told, "name": name}

    def set_variable(self, message):
        """The response to `setVariable`: an element is set where it stands."""
        arguments = arguments_of(message)
        reference, name = arguments.get("variablesReference"), arguments.get("name")
        if not isinstance(reference, int) or not isinstance(name, str):
            return (yield message)
        if (reference, name) in self.places:
            reference, name = self.places[reference, name]
            message = request("setVariable", {**arguments, "variablesReference": reference, "name": name})
        elif reference in self.own:
            return failed("notWritable", 14)
        return self.value((yield message))
