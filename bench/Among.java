import com.sun.jdi.ReferenceType;
import com.sun.jdi.ThreadReference;
import com.sun.jdi.VMDisconnectedException;
import com.sun.jdi.VirtualMachine;
import com.sun.jdi.event.BreakpointEvent;
import com.sun.jdi.event.ClassPrepareEvent;
import com.sun.jdi.event.Event;
import com.sun.jdi.event.EventSet;
import com.sun.jdi.event.StepEvent;
import com.sun.jdi.request.ClassPrepareRequest;
import com.sun.jdi.request.EventRequest;
import com.sun.jdi.request.StepRequest;
import java.util.ArrayList;
import java.util.Collections;
import java.util.List;
import java.util.Locale;

/**
 * A debugger by the Java Debug Interface over a Java program of many classes. It attaches, sets a breakpoint in a class
 * that is loaded, has itself told which classes are prepared in its package, and reads the source's name of each. It
 * prints a line then, and resumes what comes: each hit, or where STEPS is given the first, and then so many steps over.
 * At the program's end it prints how many stops there were, and the median of the milliseconds from a resume to the next.
 *
 * usage: java Among PORT CLASS LINE [STEPS]
 */
public class Among {
    private static final long PATIENCE = 60_000;
    private final VirtualMachine machine;
    private final int steps;
    private final List<Long> waits = new ArrayList<>();
    private EventRequest breakpoint;
    private StepRequest step;
    private long resumed;
    private int stops;

    private Among(VirtualMachine machine, int steps) {
        this.machine = machine;
        this.steps = steps;
    }

    private void begin(String name, int line) throws Exception {
        ClassPrepareRequest watch = machine.eventRequestManager().createClassPrepareRequest();
        watch.addClassFilter(name.substring(0, name.lastIndexOf('.')) + ".*");
        watch.setSuspendPolicy(EventRequest.SUSPEND_ALL);
        watch.enable();
        ReferenceType type = machine.classesByName(name).get(0);
        breakpoint = machine.eventRequestManager().createBreakpointRequest(type.locationsOfLine(line).get(0));
        breakpoint.setSuspendPolicy(EventRequest.SUSPEND_ALL);
        breakpoint.enable();
        System.out.println("ready");
    }

    /** Behind the first hit it steps, and isn't told of hits any more. */
    private void beginSteps(ThreadReference thread) {
        breakpoint.disable();
        step = machine.eventRequestManager().createStepRequest(thread, StepRequest.STEP_LINE, StepRequest.STEP_OVER);
        step.setSuspendPolicy(EventRequest.SUSPEND_ALL);
        step.enable();
    }

    private void stop(ThreadReference thread) {
        if (stops > 0) {
            waits.add(System.nanoTime() - resumed);
        }
        stops++;
        if (steps > 0 && step == null) {
            beginSteps(thread);
        } else if (step != null && stops > steps) {
            step.disable();
        }
    }

    private void handle(Event event) throws Exception {
        if (event instanceof BreakpointEvent) {
            stop(((BreakpointEvent) event).thread());
        } else if (event instanceof StepEvent) {
            stop(((StepEvent) event).thread());
        } else if (event instanceof ClassPrepareEvent) {
            ((ClassPrepareEvent) event).referenceType().sourceName();
        }
    }

    private void run() throws Exception {
        try {
            while (true) {
                EventSet events = machine.eventQueue().remove(PATIENCE);
                if (events == null) {
                    throw new IllegalStateException("nothing came for a minute");
                }
                for (Event event : events) {
                    handle(event);
                }
                resumed = System.nanoTime();
                events.resume();
            }
        } catch (VMDisconnectedException ended) {
            // The program has ended.
        }
    }

    public static void main(String[] words) throws Exception {
        int steps = words.length > 3 ? Integer.parseInt(words[3]) : 0;
        Among debugger = new Among(Hits.attached(words[0]), steps);
        debugger.begin(words[1], Integer.parseInt(words[2]));
        debugger.run();
        Collections.sort(debugger.waits);
        long median = debugger.waits.isEmpty() ? 0 : debugger.waits.get(debugger.waits.size() / 2);
        System.out.printf(Locale.ROOT, "stops %d, median %.4f ms%n", debugger.stops, median / 1e6);
    }
}
