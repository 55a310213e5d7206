import com.sun.jdi.AbsentInformationException;
import com.sun.jdi.Bootstrap;
import com.sun.jdi.Location;
import com.sun.jdi.ReferenceType;
import com.sun.jdi.VMDisconnectedException;
import com.sun.jdi.VirtualMachine;
import com.sun.jdi.connect.AttachingConnector;
import com.sun.jdi.connect.Connector;
import com.sun.jdi.event.BreakpointEvent;
import com.sun.jdi.event.ClassPrepareEvent;
import com.sun.jdi.event.Event;
import com.sun.jdi.event.EventSet;
import com.sun.jdi.request.ClassPrepareRequest;
import com.sun.jdi.request.EventRequest;
import java.util.ArrayList;
import java.util.Collections;
import java.util.List;
import java.util.Locale;
import java.util.Map;

/**
 * A debugger by the Java Debug Interface. It attaches to a Java program that waits for its debugger, sets a breakpoint
 * in a class that isn't loaded yet, and resumes each hit once it held it for so many milliseconds, up to the program's
 * end. Prints one line: how many hits there were, the milliseconds from the first to the last, and the median of those
 * from a resume to the next hit.
 *
 * usage: java Hits PORT CLASS LINE HOLD
 */
public class Hits {
    private static final long PATIENCE = 60_000;
    final VirtualMachine machine;
    private final String name;
    private final int line;
    private final long hold;
    private final List<Long> heard = new ArrayList<>();
    private final List<Long> resumed = new ArrayList<>();

    Hits(VirtualMachine machine, String name, int line, long hold) {
        this.machine = machine;
        this.name = name;
        this.line = line;
        this.hold = hold;
    }

    static VirtualMachine attached(String port) throws Exception {
        for (AttachingConnector connector : Bootstrap.virtualMachineManager().attachingConnectors()) {
            if (connector.name().equals("com.sun.jdi.SocketAttach")) {
                Map<String, Connector.Argument> arguments = connector.defaultArguments();
                arguments.get("hostname").setValue("127.0.0.1");
                arguments.get("port").setValue(port);
                return connector.attach(arguments);
            }
        }
        throw new IllegalStateException("there is no connector that attaches by a socket");
    }

    /** Asks to be told when the class is prepared, with the whole machine suspended. */
    private void watch() {
        ClassPrepareRequest request = machine.eventRequestManager().createClassPrepareRequest();
        request.addClassFilter(name);
        request.setSuspendPolicy(EventRequest.SUSPEND_ALL);
        request.enable();
    }

    private void set(ReferenceType type) throws AbsentInformationException {
        for (Location location : type.locationsOfLine(line)) {
            EventRequest request = machine.eventRequestManager().createBreakpointRequest(location);
            request.setSuspendPolicy(EventRequest.SUSPEND_ALL);
            request.enable();
        }
    }

    /** What is done at a hit, before it is resumed. */
    void stand(BreakpointEvent hit) throws Exception {
    }

    private void handle(Event event) throws Exception {
        if (event instanceof ClassPrepareEvent) {
            set(((ClassPrepareEvent) event).referenceType());
        } else if (event instanceof BreakpointEvent) {
            heard.add(System.nanoTime());
            stand((BreakpointEvent) event);
        }
    }

    /** Resumes behind some events. What has a hit among them is held first. */
    private void resume(EventSet events) throws InterruptedException {
        if (resumed.size() < heard.size()) {
            Thread.sleep(hold);
        }
        while (resumed.size() < heard.size()) {
            resumed.add(System.nanoTime());
        }
        events.resume();
    }

    /** Handles what comes, each set of events at once, and resumes behind it, until the program has ended. */
    final void run() throws Exception {
        watch();
        try {
            while (true) {
                EventSet events = machine.eventQueue().remove(PATIENCE);
                if (events == null) {
                    throw new IllegalStateException("nothing came for a minute");
                }
                for (Event event : events) {
                    handle(event);
                }
                resume(events);
            }
        } catch (VMDisconnectedException ended) {
            // The program has ended.
        }
    }

    /** How long the next hit took behind each resume, in order of length. */
    private List<Long> waits() {
        List<Long> waits = new ArrayList<>();
        for (int place = 1; place < heard.size(); place++) {
            waits.add(heard.get(place) - resumed.get(place - 1));
        }
        Collections.sort(waits);
        return waits;
    }

    private String report() {
        List<Long> waits = waits();
        long all = heard.isEmpty() ? 0 : heard.get(heard.size() - 1) - heard.get(0);
        long median = waits.isEmpty() ? 0 : waits.get(waits.size() / 2);
        String form = "hits %d, all %.3f ms, median %.4f ms";
        return String.format(Locale.ROOT, form, heard.size(), all / 1e6, median / 1e6);
    }

    public static void main(String[] words) throws Exception {
        Hits hits = new Hits(attached(words[0]), words[1], Integer.parseInt(words[2]), Long.parseLong(words[3]));
        hits.run();
        System.out.println(hits.report());
    }
}
