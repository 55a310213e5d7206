package stops;

/** Prints `up`, then 1, 2, 3 and so on, a number every ten milliseconds, until it is sent something, and `down`. */
public class Counting {
    public static void main(String[] words) throws Exception {
        System.out.println("up");
        int count = 0;
        while (System.in.available() == 0) {
            count++;
            System.out.println(count);
            Thread.sleep(10);
        }
        System.out.println("down");
    }
}
