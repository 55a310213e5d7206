package stops;

import java.util.concurrent.atomic.AtomicInteger;

/**
 * Prints `up` and waits for a line. Then two threads come to one line at once, as many times as the first word says.
 * There each prints its name, and how many times it was there.
 */
public class Pair extends Thread {
    private static final AtomicInteger ARRIVED = new AtomicInteger();
    private final int last;

    private Pair(String name, int last) {
        super(name);
        this.last = last;
    }

    @Override
    public void run() {
        for (int round = 1; round <= last; round++) {
            awaitOther(round);
            System.out.println(getName() + " " + round);
        }
    }

    /** Waits until both threads are here, without sleeping, so that both are at the next line within a short time. */
    private static void awaitOther(int round) {
        ARRIVED.incrementAndGet();
        while (ARRIVED.get() < 2 * round) {
            Thread.yield();
        }
    }

    public static void main(String[] words) throws Exception {
        int last = Integer.parseInt(words[0]);
        System.out.println("up");
        System.in.read();
        new Pair("left", last).start();
        new Pair("right", last).start();
    }
}
