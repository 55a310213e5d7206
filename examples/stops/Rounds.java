package stops;

/** Comes to one line as many times as its first word says, and prints the sum of the numbers of the rounds. */
public class Rounds {
    public static void main(String[] words) {
        int last = Integer.parseInt(words[0]);
        long sum = 0;
        for (int round = 1; round <= last; round++) {
            sum += round;
        }
        System.out.println("sum " + sum);
    }
}
