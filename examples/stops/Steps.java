package stops;

/** Prints `up` and waits for a line. Then it calls a method three times, and prints what comes of it. */
public class Steps {
    private static int twice(int number) {
        int sum = number + number;
        return sum;
    }

    public static void main(String[] words) throws Exception {
        System.out.println("up");
        System.in.read();
        int first = twice(1);
        int second = twice(first);
        int third = twice(second);
        System.out.println(third);
    }
}
