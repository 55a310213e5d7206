"""The cases of examples/java_stops.py in which the client asks for values of expressions, and writes variables."""
from sessions import STALE, TERMINATED, UNKNOWN, WRONG, ask_of, begin, bound, children, ended, failed, go_on, has_to_be
from sessions import hit, leaves, line_of, scope, stack, succeeded

VALUES = "stops/Values.java"
# Failures of expressions and of writes.
NO_NAME, NO_TEXT, NO_INDEX, FIXED = (11, "noSuchName"), (12, "badExpression"), (13, "badIndex"), (14, "notWritable")
# What the Java program prints of each of its calls.
FIRST = b"5 1099511627776 false 65 -1 -2 0.5 0.25 a word\n[7, 8, 9] [1, 2] true\nbelow above 7 98 false\n"
SECOND = b"6 1099511627776 false 65 -1 -2 0.5 0.25 null\n[7, 8, 9] [1, 2] true\nbelow above 7 98 false\n"
# The types of its classes and of what the library has.
ABOVE, BELOW, STRING, OBJECT = "stops.Values$Above", "stops.Values$Below", "java.lang.String", "java.lang.Object"
# Values that have no children: the expression, the text, and the type.
PLAIN = (
    ("number", "5", "int"),
    (" number\t", "5", "int"),
    ("many", "1099511627776", "long"),
    ("isTrue", "false", "boolean"),
    ("sign", "'A'", "char"),
    ("small", "-1", "byte"),
    ("few", "-2", "short"),
    ("part", "float:0x3f000000", "float"),
    ("ratio", "double:0x3fd0000000000000", "double"),
    ("text", '"a word"', STRING),
    # fields, the first of a name from the object's class upwards
    ("name", '"below"', STRING),
    ("this.name", '"below"', STRING),
    ("letter", "'b'", "char"),
    ("depth", "7", "int"),
    ("next.name", '"above"', STRING),
    ("this.next.depth", "7", "int"),
    ("next.next", "null", ABOVE),
    # elements, and lengths
    ("elements[2]", "9", "int"),
    ("elements.length", "3", "int"),
    ("table[1][0]", "1", "int"),
    ("table[1].length", "2", "int"),
    ("table[0]", "null", "int[]"),
    ("things[0].depth", "7", "int"),
    ("things[1]", '"a word"', STRING),
    ("things[2][1]", "8", "int"),
    ("things[3]", "null", OBJECT),
)
# Values that have children: the expression, and the variable that holds the same.
SAME = (("this", "this"), ("things[0]", "this"), ("elements", "elements"), ("things[2]", "elements"))
# Expressions that have no value, each with its failure.
MISSING = (
    # variables that are over or not there yet, and a field that is no object's
    ("earlier", NO_NAME),
    ("later", NO_NAME),
    ("made", NO_NAME),
    ("nothing", NO_NAME),
    # a string has no fields, whatever its class has; nor has a number, or null
    ("text.length", NO_NAME),
    ("text.value", NO_NAME),
    ("text.hash", NO_NAME),
    ("number.length", NO_NAME),
    ("next.next.name", NO_NAME),
    ("elements.size", NO_NAME),
    ("text[0]", NO_INDEX),
    ("number[0]", NO_INDEX),
    ("this[0]", NO_INDEX),
    ("table[0][0]", NO_INDEX),
    ("elements[3]", NO_INDEX),
    ("elements[3].length", NO_INDEX),
    ("", NO_TEXT + (0,)),
    ("number + 1", NO_TEXT + (7,)),
    ("elements[-1]", NO_TEXT + (9,)),
    ("nothing.", NO_TEXT + (8,)),
)
# What is written: of variables, of fields and of elements, the name, the text, the text of the response, and the type.
VARIABLES = (
    ("number", "-2147483648", "-2147483648", "int"),
    ("many", "9223372036854775807", "9223372036854775807", "long"),
    ("isTrue", "true", "true", "boolean"),
    ("sign", "'\\u00e9'", "'\\u00e9'", "char"),
    ("small", "127", "127", "byte"),
    ("few", "-0032768", "-32768", "short"),
    ("text", "null", "null", STRING),
)
FIELDS = (
    ("name", "null", "null", STRING),
    ("name@" + ABOVE, "null", "null", STRING),
    ("depth", "-0", "0", "int"),
    ("letter", "'\\''", "'\\''", "char"),
    ("next", "null", "null", ABOVE),
)
ELEMENTS = (("[1]", "-8", "-8", "int"), ("[2]", "2147483647", "2147483647", "int"))
THINGS = (("[0]", "null", "null", OBJECT),)
WRITTEN = (b"-2147483648 9223372036854775807 true 233 127 -32768 0.5 0.25 null\n[7, -8, 2147483647] [1, 2] false\n"
           b"null null 0 39 true\n")
# The second call has variables of its own, and gives one field of the object a value.
BEHIND = b"6 1099511627776 false 65 -1 -2 0.5 0.25 null\n[7, 8, 9] [1, 2] true\nnull null 0 39 false\n"
# What isn't written: of variables, of fields and of elements, the name, the text, and the failure.
NO_VARIABLES = (
    ("this", "null", FIXED),
    ("part", "1", FIXED),
    ("ratio", "x", FIXED),
    ("text", '"another"', FIXED),
    ("things", "[]", FIXED),
    ("number", "x", NO_TEXT + (0,)),
    ("number", "2147483648", NO_TEXT + (0,)),
    ("many", "-9223372036854775809", NO_TEXT + (0,)),
    ("isTrue", "1", NO_TEXT + (0,)),
    ("sign", "A", NO_TEXT + (0,)),
    ("small", "128", NO_TEXT + (0,)),
    ("few", "", NO_TEXT + (0,)),
    ("earlier", "1", NO_NAME),
    ("later", "x", NO_NAME),
    ("depth", "1", NO_NAME),
)
NO_FIELDS = (
    ("made", "1", NO_NAME),
    ("this", "null", NO_NAME),
    ("name@" + BELOW, "null", NO_NAME),
    ("name", "below", FIXED),
    ("depth", "1.0", NO_TEXT + (0,)),
)
NO_ELEMENTS = (
    ("[3]", "x", NO_INDEX),
    ("[99999999999999]", "1", NO_INDEX),
    ("[01]", "1", NO_NAME),
    ("length", "1", NO_NAME),
    ("[1]", "x", NO_TEXT + (0,)),
)


def values_of_expressions(java, bridge, session):
    number, frames, variables = at_the_line(java, session, supportsVariableType=True)
    for expression, text, kind in PLAIN:
        due = {"result": text, "type": kind, "variablesReference": 0}
        has_to_be(expression, value_of(session, frames[0], expression), succeeded(due))
    for expression, name in SAME:
        # What has children is shown as `variables` shows it, under the same number.
        shown = variables[name]
        due = {"result" if member == "value" else member: shown[member] for member in shown if member != "name"}
        has_to_be(expression, value_of(session, frames[0], expression), succeeded(due))
    for expression, failure in MISSING:
        has_to_be(expression, value_of(session, frames[0], expression), failed(*failure))
    has_to_be("the object of a static method", value_of(session, frames[-1], "this"), failed(*NO_NAME))
    due = {"result": '"a word"', "type": STRING, "variablesReference": 0}
    has_to_be("a variable of the caller", value_of(session, frames[-1], "words[0]"), succeeded(due))
    go_on(session, number)
    number, others, _ = in_a_call(session)
    due = {"result": "6", "type": "int", "variablesReference": 0}
    has_to_be("the number of the second call", value_of(session, others[0], "number"), succeeded(due))
    has_to_be("that of the first", value_of(session, frames[0], "number"), failed(*STALE, 1))
    go_on(session, number)
    has_to_be("what is printed", ended(java, bridge, session), FIRST + SECOND)


def what_was_written(java, bridge, session):
    number, frames, variables = at_the_line(java, session, supportsVariableType=True)
    # What each is shown as from then on tells, whether it is asked for by the container or by an expression.
    for place, rows in (("", VARIABLES), ("this", FIELDS), ("elements", ELEMENTS), ("things", THINGS)):
        container = variables[place]["variablesReference"]
        for name, text, told, kind in rows:
            due = {"type": kind, "value": told, "variablesReference": 0}
            has_to_be("%s as %s" % (name, text), written(session, container, name, text), succeeded(due))
            has_to_be("%s behind it" % name, children_by_name(session, container)[name], {"name": name, **due})
    for expression, text in (("number", "-2147483648"), ("depth", "0"), ("elements[1]", "-8"), ("things[0]", "null")):
        has_to_be(expression, value_of(session, frames[0], expression)["body"]["result"], text)
    has_to_be("events in the stop", session.waiting, [])
    has_to_be("what is printed in the stop", java.heard(0.3), b"")
    go_on(session, number)
    number, _, variables = in_a_call(session)
    has_to_be("the number of the second call", variables["number"]["value"], "6")
    fields = children_by_name(session, variables["this"]["variablesReference"])
    due = {name: text for name, _, text, _ in FIELDS[:-1]}
    has_to_be("fields that were written", {name: fields[name]["value"] for name in due}, due)
    go_on(session, number)
    has_to_be("what is printed", ended(java, bridge, session), WRITTEN + BEHIND)


def what_is_not_written(java, bridge, session):
    asked = {"variablesReference": 1, "name": "number", "value": "1"}
    has_to_be("a write, no target", session.ask("setVariable", asked), failed(3, "notAttached"))
    has_to_be("a value, no target", value_of(session, {"id": 1}, "number"), failed(3, "notAttached"))
    number, frames, variables = at_the_line(java, session)
    for place, rows in (("", NO_VARIABLES), ("this", NO_FIELDS), ("elements", NO_ELEMENTS)):
        container = variables[place]["variablesReference"]
        before = children(session, container)
        for name, text, failure in rows:
            has_to_be("%s as %s" % (name, text), written(session, container, name, text), failed(*failure))
        has_to_be("what is there behind them", children(session, container), before)
    fields = children(session, variables["this"]["variablesReference"])
    told = max(child["variablesReference"] for child in (*variables.values(), *fields))
    has_to_be("a write in a frame", written(session, frames[0]["id"], "number", "x"), failed(*WRONG))
    has_to_be("a value in a scope", value_of(session, variables[""], "number."), failed(*WRONG))
    has_to_be("a write in nothing", written(session, told + 1, "number", "x"), failed(*UNKNOWN, told + 1))
    has_to_be("a value in nothing", value_of(session, {"id": told + 1}, "number."), failed(*UNKNOWN, told + 1))
    old = ("setVariable", {"variablesReference": frames[0]["id"], "name": "number", "value": "x"})
    said = session.ask_all([("continue", {"threadId": number}), old])
    has_to_be("what is said of a write behind a continue", said[1], failed(*STALE, 1))
    number, _, _ = in_a_call(session)
    has_to_be("a write in the first stop", written(session, variables[""]["variablesReference"], "number", "1"),
              failed(*STALE, 1))
    go_on(session, number)
    has_to_be("what is printed", ended(java, bridge, session), FIRST + SECOND)


def values_of_no_target(java, bridge, session):
    _, frames, variables = at_the_line(java, session)
    java.process.kill()
    has_to_be("the event behind it", session.event(), TERMINATED)
    gone = failed(10, "targetGone")
    has_to_be("a value, no target", value_of(session, frames[0], "number"), gone)
    has_to_be("a write, no target", written(session, variables[""]["variablesReference"], "number", "x"), gone)
    leaves(bridge, session)


def at_the_line(java, session, **options):
    """The first call's stop, as `in_a_call` gives it."""
    line = line_of(VALUES, "onSpinWait()")
    begin(session, VALUES, [line], is_loaded=False, **options)
    has_to_be("a value, no stop", value_of(session, {"id": 1}, "number"), failed(*UNKNOWN, 1))
    has_to_be("a write, no stop", written(session, 1, "number", "1"), failed(*UNKNOWN, 1))
    java.go_on()
    has_to_be("the event of the class", session.event(), bound(1, line))
    return in_a_call(session)


def in_a_call(session):
    """The number of the thread that stopped, its frames, and the variables of the first one by their names; under the
    empty name stands their scope."""
    number = hit(session, [1])
    frames = stack(session, number)[0]
    last = frames[-1]["id"]
    has_to_be("the scope", ask_of(session, "scopes", frames[0]["id"]), succeeded(scope(last + 1)))
    variables = children_by_name(session, last + 1)
    return number, frames, {"": {"id": last + 1, "variablesReference": last + 1}, **variables}


def children_by_name(session, number):
    """What a thing holds, by the names."""
    return {child["name"]: child for child in children(session, number)}


def value_of(session, frame, expression):
    """What is said of the value of an expression in a frame (DAP specification, Evaluate request)."""
    return session.ask("evaluate", {"expression": expression, "frameId": frame["id"], "context": "watch"})


def written(session, number, name, text):
    """What is said to a write (DAP specification, SetVariable request)."""
    return session.ask("setVariable", {"variablesReference": number, "name": name, "value": text})


# The cases, as in examples/java_stops.py.
VALUE_CASES = (
    (values_of_expressions, False, "stops.Values", "a word"),
    (what_was_written, False, "stops.Values", "a word"),
    (what_is_not_written, False, "stops.Values", "a word"),
    (values_of_no_target, False, "stops.Values", "a word"),
)
