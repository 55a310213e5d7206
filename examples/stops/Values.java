package stops;

import java.util.Arrays;
import java.util.stream.Collectors;

/**
 * Prints `up` and waits for a line. Then it calls a method of one object twice. Behind the line where a debugger stops
 * there it prints the method's variables, the elements of its arrays, and the object's fields, a line each.
 */
public class Values {
    /** Has a field of a name that a class below has, too, and one that is no object's. */
    private static class Above {
        static int made = 1;
        String name = "above";
        int depth = 7;
        Above next;
    }

    /** Has no field. */
    private static class Between extends Above {
    }

    /** Has the line. */
    private static class Below extends Between {
        String name = "below";
        char letter = 'b';

        private void stand(int number, String text) {
            for (int earlier = 0; earlier < number; earlier++) {
                next = new Above();
            }
            long many = 1L << 40;
            boolean isTrue = false;
            char sign = 'A';
            byte small = -1;
            short few = -2;
            float part = 0.5f;
            double ratio = 0.25;
            int[] elements = {7, 8, 9};
            int[][] table = {null, {1, 2}};
            Object[] things = {this, text, elements, null};
            Thread.onSpinWait();
            int later = number;
            print(later, many, isTrue, (int) sign, small, few, part, ratio, text);
            print(Arrays.toString(elements), Arrays.toString(table[1]), things[0] == this);
            print(name, super.name, depth, (int) letter, next == null);
        }
    }

    /** Prints values, with blanks between them. */
    private static void print(Object... values) {
        System.out.println(Arrays.stream(values).map(String::valueOf).collect(Collectors.joining(" ")));
    }

    public static void main(String[] words) throws Exception {
        System.out.println("up");
        System.in.read();
        Below below = new Below();
        below.stand(5, words[0]);
        below.stand(6, null);
    }
}
