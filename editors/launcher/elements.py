"""What the collections of java.util hold, read by the fields that they have.

A call here that asks the bridge is a generator: it gives requests, and is sent the response to each. An item is a
variable as the bridge told it, and where it is set; that of a map has a key besides.
"""
import re
from collections import namedtuple

from .wire import request

# An object as the bridge shows it.
SHOWN = re.compile(r"([\w$.]+)@[0-9a-f]+")
# The classes of objects that hold one primitive value.
BOXES = ["java.lang." + name
         for name in ("Boolean", "Byte", "Character", "Double", "Float", "Integer", "Long", "Short")]
# How many variables are asked for at once.
PAGE = 1000

# A variable, the reference of what it is in, its name there, and the key of a map's. What can't be set has no
# reference.
Item = namedtuple("Item", "told reference name key", defaults=(None,))


class Unlike(Exception):
    """A collection that isn't laid out as these calls know it, or a question that failed."""


def class_of(variable):
    """The class of the object that a variable holds, where it holds one."""
    shown = SHOWN.fullmatch(variable.get("value") or variable.get("result") or "")
    return shown[1] if shown and variable.get("variablesReference") else None


def asked(reference, **window):
    """What a thing holds, all of it or a window."""
    said = yield request("variables", {"variablesReference": reference, **window})
    if not said.get("success"):
        raise Unlike(said.get("message"))
    return said["body"]["variables"]


def fields_of(reference):
    """The fields of an object by their names."""
    told = yield from asked(reference)
    return {variable["name"]: variable for variable in told}


def held(fields, name):
    if name not in fields:
        raise Unlike("there is no field %s" % name)
    return fields[name]


def number(fields, name):
    value = held(fields, name)["value"]
    if not re.fullmatch(r"\d{1,10}", value):
        raise Unlike("%s is no size" % value)
    return int(value)


def unboxed(variable):
    """A variable that holds a number, a character or a truth value as an object, shown as what is in that."""
    if class_of(variable) not in BOXES:
        return variable
    fields = yield from fields_of(variable["variablesReference"])
    return {**variable, "value": held(fields, "value")["value"]}


class Array:
    """A collection whose elements stand in an array in a field, all of it or as many as another field says."""

    def __init__(self, array, size=None):
        self.array, self.size_field = array, size

    def size(self, fields, _):
        yield from ()
        if self.size_field:
            return number(fields, self.size_field)
        return held(fields, self.array).get("indexedVariables", 0)

    def items(self, fields, _, start, end):
        return (yield from elements(held(fields, self.array), start, end))


def elements(array, start, end):
    """The elements of an array from one index to before another."""
    reference, found = array["variablesReference"], []
    while start < end:
        page = min(PAGE, end - start)
        told = yield from asked(reference, filter="indexed", start=start, count=page)
        if len(told) != page:
            raise Unlike("the array has %d of %d elements" % (len(told), page))
        found += [Item(variable, reference, variable["name"]) for variable in told]
        start += page
    return found


class Ring:
    """An ArrayDeque: the elements begin at an index of an array, and go on at its front."""

    def size(self, fields, _):
        yield from ()
        length = held(fields, "elements").get("indexedVariables", 0)
        return (number(fields, "tail") - number(fields, "head")) % length if length else 0

    def items(self, fields, _, start, end):
        array, head = held(fields, "elements"), number(fields, "head")
        length = array["indexedVariables"]
        start, end = head + start, head + end
        found = yield from elements(array, min(start, length), min(end, length))
        return found + (yield from elements(array, max(start - length, 0), max(end - length, 0)))


class Sparse:
    """An immutable set or map: an array in which null stands between the elements, or between keys with their
    values."""

    def __init__(self, array, step):
        self.array, self.step = array, step

    def size(self, fields, _):
        yield from ()
        return number(fields, "size")

    def items(self, fields, _, start, end):
        array = held(fields, self.array)
        told = yield from elements(array, 0, array.get("indexedVariables", 0))
        if self.step == 1:
            return [item for item in told if item.told["value"] != "null"][start:end]
        pairs = zip(told[::2], told[1::2])
        return [value._replace(key=key.told) for key, value in pairs if key.told["value"] != "null"][start:end]


class Slots:
    """A collection of at most two elements, or a map of one entry, in fields of these names."""

    def __init__(self, names, key=None):
        self.names, self.key = names, key

    def size(self, fields, reference):
        return len((yield from self.items(fields, reference, 0, len(self.names))))

    def items(self, fields, reference, start, end):
        yield from ()
        key = held(fields, self.key) if self.key else None
        found = [Item(held(fields, name), reference, name, key) for name in self.names]
        # The second field of List12 and Set12 holds null or a plain object where there is no second element.
        return [item for place, item in enumerate(found) if not place or not is_empty(item.told)][start:end]


def is_empty(variable):
    return variable["value"] == "null" or class_of(variable) == "java.lang.Object"


class Nodes:
    """A collection of nodes. Each kind says in which order they stand; the names are those of a node's fields."""

    def __init__(self, names):
        self.names = names

    def size(self, fields, _):
        yield from ()
        return number(fields, "size" if "size" in fields else "count")

    def items(self, fields, _, start, end):
        found, walk = [], self.walk(fields, end)
        for place, (reference, parts) in enumerate((yield from walk)):
            if place >= start:
                found.append(self.item(reference, parts))
        return found

    def item(self, reference, parts):
        *key, name = self.names
        return Item(held(parts, name), reference, name, held(parts, key[0]) if key else None)


class Chain(Nodes):
    """Nodes of which each names the next."""

    def __init__(self, first, following, *names):
        super().__init__(names)
        self.first, self.following = first, following

    def walk(self, fields, end):
        return (yield from chained(held(fields, self.first), self.following, end))


def chained(node, following, end):
    """At most so many nodes of a chain, each with its reference and its fields."""
    found = []
    while node["variablesReference"] and len(found) < end:
        parts = yield from fields_of(node["variablesReference"])
        found.append((node["variablesReference"], parts))
        node = held(parts, following)
    return found


class Table(Nodes):
    """A table of chains."""

    def walk(self, fields, end):
        table, found, start = held(fields, "table"), [], 0
        length = table.get("indexedVariables", 0)
        while start < length and len(found) < end:
            page = yield from elements(table, start, min(start + PAGE, length))
            for item in page:
                found += yield from chained((yield from bucket(item.told)), "next", end - len(found))
            start += PAGE
        return found


class Cells(Table):
    """A ConcurrentHashMap, whose size is the sum of what threads have counted."""

    def size(self, fields, _):
        cells, count = held(fields, "counterCells"), int(held(fields, "baseCount")["value"])
        for item in (yield from elements(cells, 0, cells.get("indexedVariables", 0))):
            if item.told["variablesReference"]:
                count += int(held((yield from fields_of(item.told["variablesReference"])), "value")["value"])
        return max(count, 0)


def bucket(node):
    """The first node of a table's place. A ConcurrentHashMap has a node before those of a tree."""
    if not (class_of(node) or "").endswith("$TreeBin"):
        return node
    return held((yield from fields_of(node["variablesReference"])), "first")


class Tree(Nodes):
    """A tree of nodes in order."""

    def walk(self, fields, end):
        node, above, found = held(fields, "root"), [], []
        while (node["variablesReference"] or above) and len(found) < end:
            while node["variablesReference"]:
                above.append((node["variablesReference"], (yield from fields_of(node["variablesReference"]))))
                node = held(above[-1][1], "left")
            found.append(above.pop())
            node = held(found[-1][1], "right")
        return found


class Inner:
    """A collection that hands on what another in a field of it has: all, or the keys of a map."""

    def __init__(self, name, has_keys=False):
        self.name, self.has_keys = name, has_keys

    def inner(self, fields):
        variable = held(fields, self.name)
        kind = KINDS.get(class_of(variable))
        if not kind:
            raise Unlike("%s is no collection" % variable["value"])
        reference = variable["variablesReference"]
        return kind, (yield from fields_of(reference)), reference

    def size(self, fields, _):
        kind, inside, reference = yield from self.inner(fields)
        return (yield from kind.size(inside, reference))

    def items(self, fields, _, start, end):
        kind, inside, reference = yield from self.inner(fields)
        found = yield from kind.items(inside, reference, start, end)
        return [Item(item.key, None, None) for item in found] if self.has_keys else found


UTIL = {
    "ArrayList": Array("elementData", "size"),
    "Vector": Array("elementData", "elementCount"),
    "Stack": Array("elementData", "elementCount"),
    "PriorityQueue": Array("queue", "size"),
    "Arrays$ArrayList": Array("a"),
    "concurrent.CopyOnWriteArrayList": Array("array"),
    "ArrayDeque": Ring(),
    "LinkedList": Chain("first", "next", "item"),
    "LinkedHashMap": Chain("head", "after", "key", "value"),
    "HashMap": Table(("key", "value")),
    "Hashtable": Table(("key", "value")),
    "concurrent.ConcurrentHashMap": Cells(("key", "val")),
    "TreeMap": Tree(("key", "value")),
    "HashSet": Inner("map", True),
    "LinkedHashSet": Inner("map", True),
    "TreeSet": Inner("m", True),
    "Collections$SetFromMap": Inner("m", True),
    "ImmutableCollections$ListN": Array("elements"),
    "ImmutableCollections$List12": Slots(("e0", "e1")),
    "ImmutableCollections$SetN": Sparse("elements", 1),
    "ImmutableCollections$Set12": Slots(("e0", "e1")),
    "ImmutableCollections$MapN": Sparse("table", 2),
    "ImmutableCollections$Map1": Slots(("v0",), "k0"),
    "Collections$SingletonList": Slots(("element",)),
    "Collections$SingletonSet": Slots(("element",)),
    "Collections$SingletonMap": Slots(("v",), "k"),
    "Collections$UnmodifiableCollection": Inner("c"),
    "Collections$UnmodifiableList": Inner("c"),
    "Collections$UnmodifiableRandomAccessList": Inner("c"),
    "Collections$UnmodifiableSet": Inner("c"),
    "Collections$UnmodifiableSortedSet": Inner("c"),
    "Collections$UnmodifiableNavigableSet": Inner("c"),
    "Collections$UnmodifiableMap": Inner("m"),
    "Collections$UnmodifiableSortedMap": Inner("m"),
    "Collections$SynchronizedCollection": Inner("c"),
    "Collections$SynchronizedList": Inner("c"),
    "Collections$SynchronizedRandomAccessList": Inner("c"),
    "Collections$SynchronizedSet": Inner("c"),
    "Collections$SynchronizedMap": Inner("m"),
}
KINDS = {"java.util." + name: kind for name, kind in UTIL.items()}
