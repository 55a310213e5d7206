/** Counts the seconds that its first word says, 60 without one. A program of one thread, to attach to. */
public class Ticks {
    public static void main(String[] words) throws InterruptedException {
        int last = words.length > 0 ? Integer.parseInt(words[0]) : 60;
        for (int second = 1; second <= last; second++) {
            Thread.sleep(1000);
            System.out.println("second " + second);
        }
    }
}
