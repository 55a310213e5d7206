package loading;

import java.util.ArrayList;
import java.util.List;
import java.util.concurrent.atomic.AtomicLong;

/**
 * Starts and ends threads as fast as it can: so many of its threads start one after the other, each once the one before
 * has ended, for so many seconds. It prints a line first and waits for one, and prints at last how many there were.
 *
 * <p>usage: java loading.Starts STARTERS SECONDS
 */
public class Starts {
    private static final AtomicLong COUNT = new AtomicLong();

    private static void start(long end) {
        try {
            while (System.nanoTime() < end) {
                Thread started = new Thread(COUNT::incrementAndGet);
                started.start();
                started.join();
            }
        } catch (InterruptedException interrupted) {
            Thread.currentThread().interrupt();
        }
    }

    public static void main(String[] words) throws Exception {
        System.out.println("up");
        System.in.read();
        long end = System.nanoTime() + 1_000_000_000L * Integer.parseInt(words[1]);
        List<Thread> starters = new ArrayList<>();
        for (int place = 0; place < Integer.parseInt(words[0]); place++) {
            starters.add(new Thread(() -> start(end)));
        }
        for (Thread starter : starters) {
            starter.start();
        }
        for (Thread starter : starters) {
            starter.join();
        }
        System.out.println("started " + COUNT.get());
    }
}
