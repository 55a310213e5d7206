package stops;

/** Prints `up`, waits for a line, and sleeps for two seconds. Then it loads a class and calls it. */
public class Late {
    /** A class that is loaded where it is called first. */
    static class Guest {
        static void speak() {
            System.out.println("first line");
            System.out.println("second line");
        }
    }

    public static void main(String[] words) throws Exception {
        System.out.println("up");
        System.in.read();
        Thread.sleep(2000);
        System.out.println("soon");
        Guest.speak();
    }
}
