import com.sun.jdi.AbsentInformationException;
import com.sun.jdi.ArrayReference;
import com.sun.jdi.CharValue;
import com.sun.jdi.DoubleValue;
import com.sun.jdi.LocalVariable;
import com.sun.jdi.Location;
import com.sun.jdi.ObjectReference;
import com.sun.jdi.StackFrame;
import com.sun.jdi.StringReference;
import com.sun.jdi.ThreadReference;
import com.sun.jdi.Value;
import com.sun.jdi.VirtualMachine;
import java.io.IOException;
import java.io.PrintStream;
import java.nio.charset.StandardCharsets;
import java.util.ArrayList;
import java.util.List;
import java.util.Locale;
import java.util.Map;

/**
 * A debugger by the Java Debug Interface that takes the stacks of all threads, with their values, as `dump` does: it
 * attaches, suspends the Java machine, reads all, has it run on, and leaves. It does so as many times as the second word
 * says. Prints the text of the last time, and to the standard error the milliseconds of each.
 *
 * usage: java Dump PORT TIMES
 */
public class Dump {
    private static final long PATIENCE = 60_000;
    private final StringBuilder text = new StringBuilder();
    private long start;

    /** Attaches as soon as the Java machine listens again, behind the debugger before. That is where time begins. */
    private VirtualMachine attached(String port) throws Exception {
        long end = System.currentTimeMillis() + PATIENCE;
        while (true) {
            start = System.nanoTime();
            try {
                return Hits.attached(port);
            } catch (IOException e) {
                if (System.currentTimeMillis() > end) {
                    throw e;
                }
                Thread.sleep(5);
            }
        }
    }

    private static String quoted(String text) {
        return '"' + text.replace("\\", "\\\\").replace("\"", "\\\"") + '"';
    }

    private static String shown(Value value) {
        if (value instanceof StringReference) {
            return quoted(((StringReference) value).value());
        } else if (value instanceof ArrayReference) {
            return value.type().name().replaceFirst("\\[]", "[" + ((ArrayReference) value).length() + "]");
        } else if (value instanceof ObjectReference) {
            return value.type().name() + "@" + Long.toHexString(((ObjectReference) value).uniqueID());
        } else if (value instanceof CharValue) {
            return "'" + value + "'";
        } else if (value instanceof DoubleValue) {
            return "double:0x" + Long.toHexString(Double.doubleToRawLongBits(((DoubleValue) value).value()));
        }
        return "" + value;
    }

    private void variable(String name, String declared, Value value) {
        String type = value == null ? declared : value.type().name();
        text.append("    ").append(name).append(": ").append(type).append(" = ").append(shown(value)).append('\n');
    }

    private void variables(StackFrame frame) {
        if (frame.location().method().isNative()) {
            return;
        }
        ObjectReference self = frame.thisObject();
        if (self != null) {
            variable("this", "", self);
        }
        try {
            List<LocalVariable> variables = frame.visibleVariables();
            Map<LocalVariable, Value> values = frame.getValues(variables);
            for (LocalVariable variable : variables) {
                variable(variable.name(), variable.typeName(), values.get(variable));
            }
        } catch (AbsentInformationException e) {
            return;
        }
    }

    private void read(VirtualMachine machine) throws Exception {
        List<ThreadReference> threads = machine.allThreads();
        for (int number = 1; number <= threads.size(); number++) {
            ThreadReference thread = threads.get(number - 1);
            text.append("thread ").append(number).append(' ').append(quoted(thread.name())).append('\n');
            int place = 0;
            for (StackFrame frame : thread.frames()) {
                Location at = frame.location();
                text.append("  #").append(place).append(' ').append(at.declaringType().name()).append('.');
                text.append(at.method().name()).append(':').append(Math.max(0, at.lineNumber())).append('\n');
                variables(frame);
                place++;
            }
        }
        text.append("end ").append(threads.size()).append('\n');
    }

    public static void main(String[] words) throws Exception {
        List<String> taken = new ArrayList<>();
        String last = "";
        for (int time = 0; time < Integer.parseInt(words[1]); time++) {
            Dump dump = new Dump();
            VirtualMachine machine = dump.attached(words[0]);
            machine.suspend();
            dump.read(machine);
            machine.resume();
            machine.dispose();
            taken.add(String.format(Locale.ROOT, "%.1f", (System.nanoTime() - dump.start) / 1e6));
            last = dump.text.toString();
        }
        new PrintStream(System.out, true, StandardCharsets.UTF_8).print(last);
        System.err.println("milliseconds " + String.join(" ", taken));
    }
}
