package stops;

/** Prints `up` and waits for a line. Then it catches what it throws, and a thread throws what nothing catches. */
public class Throwing extends Thread {
    /** Is thrown. */
    static class Trouble extends RuntimeException {
        private static final long serialVersionUID = 1;
    }

    private Throwing() {
        super("thrower");
    }

    @Override
    public void run() {
        throw new Trouble(); // uncaught
    }

    private static void rescue() {
        try {
            throw new IllegalStateException(); // caught
        } catch (IllegalStateException state) {
            System.out.println("rescued");
        }
    }

    public static void main(String[] words) throws Exception {
        Throwing thrower = new Throwing();
        System.out.println("up");
        System.in.read();
        rescue();
        thrower.start();
        thrower.join();
        rescue();
    }
}
