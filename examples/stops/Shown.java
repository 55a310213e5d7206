package stops;

import java.io.FileDescriptor;
import java.io.FileOutputStream;
import java.io.PrintStream;
import java.lang.invoke.MethodType;
import java.lang.reflect.Array;
import java.lang.reflect.Field;
import java.lang.reflect.Modifier;
import java.nio.charset.StandardCharsets;
import java.util.ArrayList;
import java.util.IdentityHashMap;
import java.util.List;
import java.util.Locale;
import java.util.Map;

/**
 * What a debugger is to show in a stop. Each thing that has children gets a number: the variables of some frames first,
 * then others as they are shown. `print` shows each thing in this order, but for long arrays and for objects of the
 * library: a line with `>` and its number, and a line for each of its children. That has between tabs the name, the
 * type, the length of an array, the number or 0, and the value; the id of an object is left out. An empty line ends it.
 */
class Shown {
    /** What is shown under a name. */
    static class Child {
        private final String name;
        private final Class<?> declared;
        private final Object value;

        Child(String name, Class<?> declared, Object value) {
            this.name = name;
            this.declared = declared;
            this.value = value;
        }

        /** An object under a name. */
        static Child of(String name, Object value) {
            return new Child(name, value.getClass(), value);
        }

        /** A value of a primitive type under a name. */
        static Child plain(String name, Object value) {
            return new Child(name, MethodType.methodType(value.getClass()).unwrap().returnType(), value);
        }
    }

    /** How many characters of a string are shown. */
    static final int CHARACTERS = 1000;
    private static final int LONGEST = 100;
    private final PrintStream out =
            new PrintStream(new FileOutputStream(FileDescriptor.out), true, StandardCharsets.UTF_8);
    private final Map<Object, Integer> numbers = new IdentityHashMap<>();
    private final List<Object> things = new ArrayList<>();

    private Shown() {
    }

    static void print(Child[]... frames) {
        Shown shown = new Shown();
        for (Child[] variables : frames) {
            shown.number(variables);
        }
        for (int place = 0; place < shown.things.size(); place++) {
            shown.show(place + 1, shown.things.get(place));
        }
        shown.out.println();
    }

    private int number(Object thing) {
        return numbers.computeIfAbsent(thing, added -> {
            things.add(added);
            return things.size();
        });
    }

    private void show(int number, Object thing) {
        Class<?> type = thing.getClass();
        if (type.isArray() ? Array.getLength(thing) <= LONGEST : type.getName().startsWith("stops.")) {
            out.println("> " + number);
            for (Child child : children(thing)) {
                out.println(line(child));
            }
        }
    }

    private static List<Child> children(Object thing) {
        if (thing instanceof Child[]) {
            return List.of((Child[]) thing);
        }
        return thing.getClass().isArray() ? elements(thing) : fields(thing);
    }

    private static List<Child> elements(Object array) {
        List<Child> children = new ArrayList<>();
        Class<?> declared = array.getClass().getComponentType();
        for (int place = 0; place < Array.getLength(array); place++) {
            children.add(new Child("[" + place + "]", declared, Array.get(array, place)));
        }
        return children;
    }

    /** The fields of an object's class and of those above it. A name that was met before gets that of its class. */
    private static List<Child> fields(Object object) {
        List<Child> children = new ArrayList<>();
        List<String> met = new ArrayList<>();
        for (Class<?> type = object.getClass(); type != null; type = type.getSuperclass()) {
            for (Field field : type.getDeclaredFields()) {
                if (!Modifier.isStatic(field.getModifiers())) {
                    String name = field.getName();
                    String told = met.contains(name) ? name + "@" + type.getTypeName() : name;
                    children.add(new Child(told, field.getType(), valueOf(field, object)));
                    met.add(name);
                }
            }
        }
        return children;
    }

    private static Object valueOf(Field field, Object object) {
        try {
            field.setAccessible(true);
            return field.get(object);
        } catch (IllegalAccessException refused) {
            throw new IllegalStateException(refused);
        }
    }

    private String line(Child child) {
        Object value = child.value;
        boolean isObject = value != null && !child.declared.isPrimitive();
        Class<?> type = isObject ? value.getClass() : child.declared;
        String length = isObject && type.isArray() ? "" + Array.getLength(value) : "";
        int number = isObject && type != String.class ? number(value) : 0;
        return String.join("\t", child.name, type.getTypeName(), length, "" + number, text(type, value));
    }

    private static String text(Class<?> type, Object value) {
        if (value == null) {
            return "null";
        } else if (type.isPrimitive()) {
            return plainText(value);
        } else if (type.isArray()) {
            return type.getTypeName().replaceFirst("\\[]", "[" + Array.getLength(value) + "]");
        }
        return type == String.class ? quoted((String) value) : type.getTypeName() + "@";
    }

    private static String plainText(Object value) {
        if (value instanceof Character) {
            return letter((char) value);
        } else if (value instanceof Float) {
            return String.format(Locale.ROOT, "float:0x%08x", Float.floatToRawIntBits((float) value));
        } else if (value instanceof Double) {
            return String.format(Locale.ROOT, "double:0x%016x", Double.doubleToRawLongBits((double) value));
        }
        return value.toString();
    }

    private static String letter(char letter) {
        if (letter == '\'' || letter == '\\') {
            return "'\\" + letter + "'";
        }
        return "'" + (letter >= ' ' && letter <= '~' ? "" + letter : numbered(letter)) + "'";
    }

    private static String quoted(String text) {
        StringBuilder shown = new StringBuilder("\"");
        text.codePoints().limit(CHARACTERS).forEach(point -> shown.append(inside(point)));
        return shown + (text.codePointCount(0, text.length()) > CHARACTERS ? "\"..." : "\"");
    }

    /** A character of a string in its quotes. A half of a pair isn't well-formed UTF-8, and takes three bytes. */
    private static String inside(int point) {
        int place = "\n\r\t\"\\".indexOf(point);
        if (place >= 0) {
            return "\\" + "nrt\"\\".charAt(place);
        } else if (point < ' ' || point == '\u007f') {
            return numbered(point);
        }
        boolean isHalf = point >= Character.MIN_SURROGATE && point <= Character.MAX_SURROGATE;
        return isHalf ? "\ufffd\ufffd\ufffd" : Character.toString(point);
    }

    private static String numbered(int point) {
        return String.format(Locale.ROOT, "\\u%04x", point);
    }
}
