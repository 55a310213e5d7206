package stops;

/**
 * Comes to one line as many times as its first word says, in fourteen frames. The upper one has six variables, the last
 * of which holds as many things as the second word says, of as many kinds as the third one says, up to five.
 */
public class Deep {
    private static final int BELOW = 12;

    private static Object thing(int kind, int place) {
        switch (kind) {
            case 0:
                return new Object();
            case 1:
                return "text " + place;
            case 2:
                return new int[place % 10];
            case 3:
                return place + 1000;
            default:
                return null;
        }
    }

    private static void stand(int round, Object[] things) {
        long square = (long) round * round;
        String text = "round " + round;
        int[] numbers = {round, round + 1, round + 2};
        Thread thread = Thread.currentThread();
        Thread.onSpinWait();
    }

    private static void down(int depth, int round, Object[] things) {
        if (depth == 0) {
            stand(round, things);
        } else {
            down(depth - 1, round, things);
        }
    }

    public static void main(String[] words) {
        Object[] things = new Object[Integer.parseInt(words[1])];
        for (int place = 0; place < things.length; place++) {
            things[place] = thing(place % Integer.parseInt(words[2]), place);
        }
        for (int round = 1; round <= Integer.parseInt(words[0]); round++) {
            down(BELOW - 1, round, things);
        }
    }
}
