package stops;

/** Prints `up` and waits for a line. Then it runs a thread from its start to its end, between two lines that print. */
public class Between {
    public static void main(String[] words) throws Exception {
        System.out.println("up");
        System.in.read();
        System.out.println("before");
        Thread more = new Thread("one more");
        more.start();
        more.join();
        System.out.println("behind");
    }
}
