import java.util.ArrayList;
import java.util.List;

/**
 * As many threads as the first word says, which wait, each in as many frames of its own as the second word says. Prints
 * `up` once they all wait, and waits for a line. Then all go on, and it prints how many they were.
 */
public class Stacks extends Thread {
    private static final Object GATE = new Object();
    private static boolean isOpen;
    private final int frames;

    private Stacks(int number, int frames) {
        super("stack " + number);
        this.frames = frames;
    }

    private static void stand(String name) throws InterruptedException {
        Thread thread = Thread.currentThread();
        double half = 0.5;
        char letter = 'k';
        synchronized (GATE) {
            while (!isOpen) {
                GATE.wait();
            }
        }
    }

    private static void down(int depth, String name) throws InterruptedException {
        long square = (long) depth * depth;
        boolean even = depth % 2 == 0;
        int[] numbers = new int[depth];
        if (depth == 1) {
            stand(name);
        } else {
            down(depth - 1, name);
        }
    }

    @Override
    public void run() {
        int below = frames - 2;
        try {
            down(below, "in " + getName());
        } catch (InterruptedException e) {
            throw new IllegalStateException(e);
        }
    }

    public static void main(String[] words) throws Exception {
        List<Stacks> stacks = new ArrayList<>();
        for (int number = 1; number <= Integer.parseInt(words[0]); number++) {
            stacks.add(new Stacks(number, Integer.parseInt(words[1])));
        }
        for (Stacks stack : stacks) {
            stack.start();
        }
        for (Stacks stack : stacks) {
            while (stack.getState() != State.WAITING) {
                Thread.sleep(1);
            }
        }
        System.out.println("up");
        System.in.read();
        synchronized (GATE) {
            isOpen = true;
            GATE.notifyAll();
        }
        for (Stacks stack : stacks) {
            stack.join();
        }
        System.out.println("went " + stacks.size());
    }
}
