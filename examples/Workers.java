import java.util.concurrent.CountDownLatch;

/**
 * Three threads with names. Prints `up` once they have begun, and waits for a line. For a line with an `s` it runs one
 * thread more, prints `ran`, and waits again. Then it prints what each of the three made.
 */
public class Workers extends Thread {
    private static final CountDownLatch BEGUN = new CountDownLatch(3);
    private static final CountDownLatch TOLD = new CountDownLatch(1);
    private int sum;

    private Workers(String name) {
        super(name);
    }

    @Override
    public void run() {
        BEGUN.countDown();
        try {
            TOLD.await();
        } catch (InterruptedException e) {
            throw new IllegalStateException(e);
        }
        for (int number = 1; number <= 1000; number++) {
            sum += number;
        }
    }

    public static void main(String[] words) throws Exception {
        String[] names = {"first worker", "second worker", "\"third\" w\u00f6rker"};
        Workers[] workers = new Workers[names.length];
        for (int place = 0; place < names.length; place++) {
            workers[place] = new Workers(names[place]);
            workers[place].start();
        }
        BEGUN.await();
        System.out.println("up");
        while (System.in.read() == 's') {
            Thread more = new Thread("one more");
            more.start();
            more.join();
            System.out.println("ran");
            System.in.read();
        }
        TOLD.countDown();
        for (Workers worker : workers) {
            worker.join();
            System.out.println("made " + worker.sum);
        }
        System.out.println("down");
    }
}
