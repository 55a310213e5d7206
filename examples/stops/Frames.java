package stops;

import java.util.Arrays;
import java.util.Comparator;

/**
 * Prints `up` and waits for a line. Then a thread comes to one line as many times as the first word says, through a
 * method of the library. There it prints its own frames, and those of the main thread, which waits for it.
 */
public class Frames extends Thread {
    /** Is called by the library. */
    private static class Order implements Comparator<Integer> {
        private final Thread other;

        private Order(Thread other) {
            this.other = other;
        }

        @Override
        public int compare(Integer left, Integer right) {
            print(new Throwable().getStackTrace());
            print(other.getStackTrace());
            return left - right;
        }
    }

    private final Thread other;
    private final int last;

    private Frames(Thread other, int last) {
        this.other = other;
        this.last = last;
    }

    private static void print(StackTraceElement[] frames) {
        for (StackTraceElement frame : frames) {
            String name = frame.getClassName() + "." + frame.getMethodName();
            System.out.println(name + " " + frame.getFileName() + " " + frame.getLineNumber());
        }
    }

    @Override
    public void run() {
        while (other.getState() != Thread.State.WAITING) {
            Thread.yield();
        }
        for (int round = 1; round <= last; round++) {
            Arrays.sort(new Integer[] {1, 2}, new Order(other));
        }
    }

    public static void main(String[] words) throws Exception {
        System.out.println("up");
        System.in.read();
        Frames frames = new Frames(Thread.currentThread(), Integer.parseInt(words[0]));
        frames.start();
        frames.join();
    }
}
