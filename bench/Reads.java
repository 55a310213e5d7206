import com.sun.jdi.ArrayReference;
import com.sun.jdi.LocalVariable;
import com.sun.jdi.Location;
import com.sun.jdi.ObjectReference;
import com.sun.jdi.StackFrame;
import com.sun.jdi.StringReference;
import com.sun.jdi.ThreadReference;
import com.sun.jdi.Value;
import com.sun.jdi.VirtualMachine;
import com.sun.jdi.event.BreakpointEvent;
import java.nio.charset.StandardCharsets;
import java.util.ArrayList;
import java.util.Iterator;
import java.util.List;
import java.util.Locale;
import java.util.Map;
import java.util.zip.CRC32;

/**
 * A debugger by the Java Debug Interface that reads at each hit of a breakpoint what is there: the names of all
 * threads, the frames of the one that stopped, and the variables of the upper frame. With numbers it reads instead, at
 * the first hits, so many elements each of the array that is the second variable, behind those that were read before.
 * Prints a checksum of what it read, without names of threads and ids of objects, the milliseconds of each read, and
 * those of each cycle: from the resume of a hit to the end of the read at the next one.
 *
 * usage: java Reads PORT CLASS LINE [NUMBER..]
 */
public class Reads extends Hits {
    private interface Reading {
        List<String> read() throws Exception;
    }

    private final Iterator<Integer> numbers;
    private final boolean readsElements;
    private int place;
    private final List<String> taken = new ArrayList<>();
    private final List<String> cycles = new ArrayList<>();
    private long left;
    private final CRC32 sum = new CRC32();

    private Reads(VirtualMachine machine, String name, int line, List<Integer> numbers) {
        super(machine, name, line, 0);
        this.numbers = numbers.iterator();
        this.readsElements = !numbers.isEmpty();
    }

    @Override
    void stand(BreakpointEvent hit) throws Exception {
        if (!readsElements) {
            time(() -> stop(hit.thread()));
        } else if (numbers.hasNext()) {
            StackFrame upper = hit.thread().frame(0);
            ArrayReference array = (ArrayReference) upper.getValue(upper.visibleVariables().get(1));
            int number = numbers.next();
            time(() -> elements(array, number));
            place += number;
        }
    }

    private void time(Reading reading) throws Exception {
        long start = System.nanoTime();
        List<String> read = reading.read();
        long end = System.nanoTime();
        taken.add(milliseconds(start, end));
        if (left != 0) {
            cycles.add(milliseconds(left, end));
        }
        for (String line : read) {
            sum.update((line + "\n").getBytes(StandardCharsets.UTF_8));
        }
        left = System.nanoTime();
    }

    private static String milliseconds(long start, long end) {
        return String.format(Locale.ROOT, "%.4f", (end - start) / 1e6);
    }

    private List<String> stop(ThreadReference stopped) throws Exception {
        List<String> names = new ArrayList<>();
        for (ThreadReference thread : machine.allThreads()) {
            names.add(thread.name());
        }
        List<String> read = new ArrayList<>();
        List<StackFrame> frames = stopped.frames();
        for (StackFrame frame : frames) {
            Location at = frame.location();
            String name = at.declaringType().name() + "." + at.method().name();
            read.add(name + " " + at.sourceName() + " " + at.lineNumber());
        }
        List<LocalVariable> variables = frames.get(0).visibleVariables();
        Map<LocalVariable, Value> values = frames.get(0).getValues(variables);
        for (LocalVariable variable : variables) {
            read.add(variable.name() + " " + text(values.get(variable)));
        }
        return names.contains("main") ? read : List.of();
    }

    private List<String> elements(ArrayReference array, int number) {
        List<String> read = new ArrayList<>();
        for (Value value : array.getValues(place, number)) {
            read.add(text(value));
        }
        return read;
    }

    private static String text(Value value) {
        if (value instanceof StringReference) {
            return ((StringReference) value).value();
        } else if (value instanceof ArrayReference) {
            return value.type().name().replaceFirst("\\[]", "[" + ((ArrayReference) value).length() + "]");
        }
        return value instanceof ObjectReference ? value.type().name() + "@" : "" + value;
    }

    public static void main(String[] words) throws Exception {
        List<Integer> numbers = new ArrayList<>();
        for (String word : List.of(words).subList(3, words.length)) {
            numbers.add(Integer.parseInt(word));
        }
        Reads reads = new Reads(attached(words[0]), words[1], Integer.parseInt(words[2]), numbers);
        reads.run();
        System.out.println("sum " + reads.sum.getValue() + ", milliseconds " + String.join(" ", reads.taken)
                + ", cycles " + String.join(" ", reads.cycles));
    }
}
