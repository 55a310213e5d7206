package stops;

import java.util.stream.IntStream;
import stops.Shown.Child;

/**
 * Prints `up` and waits for a line. Then a thread comes to one line twice, in a method of an object, while the main
 * thread waits for it. Before that line it prints each time what a debugger is to show there: the variables of its own
 * frame, of the upper one of the main thread, which is that of a native method and shows none, and of the lowest.
 */
public class Variables {
    /** Has a field of a name that the class below has, too, and one that is no object's. */
    private static class Above {
        static int made = 1;
        private final String name = "above";
        private final Above none = null;
    }

    /** Has the line. */
    private static class Below extends Above implements Runnable {
        private final String name = "below";
        private final Above same = this;
        private final Thread main = Thread.currentThread();
        private final String[] words;
        private final int[] elements;

        private Below(String[] words, int[] elements) {
            this.words = words;
            this.elements = elements;
        }

        @Override
        public void run() {
            while (main.getState() != Thread.State.WAITING) {
                Thread.yield();
            }
            stand((byte) -128, true);
        }

        private void stand(byte small, boolean isTrue) {
            char letter = 'A';
            short few = -2;
            int number = Integer.MIN_VALUE;
            long many = Long.MAX_VALUE;
            float part = -0.0f;
            double ratio = 0.1;
            String nothing = null;
            for (Object[] arrays : new Object[][] {arrays(), {}}) {
                String longest = "\u00e9".repeat(Shown.CHARACTERS);
                String longer = longest + "e";
                Shown.print(new Child[] {
                    Child.of("this", this), Child.plain("small", small), Child.plain("isTrue", isTrue),
                    Child.plain("letter", letter), Child.plain("few", few), Child.plain("number", number),
                    Child.plain("many", many), Child.plain("part", part), Child.plain("ratio", ratio),
                    new Child("nothing", String.class, nothing), Child.of("arrays", arrays),
                    Child.of("longest", longest), Child.of("longer", longer),
                }, new Child[] {}, new Child[] {
                    Child.of("words", words), Child.of("elements", elements), Child.of("below", this),
                    Child.of("other", Thread.currentThread()),
                });
                if (isTrue) {
                    int past = small;
                    small = (byte) past;
                }
                Thread.onSpinWait();
                int later = few;
                few += later;
            }
        }

        private Object[] arrays() {
            Thread thread = Thread.currentThread();
            return new Object[] {
                new byte[] {-1}, new char[] {'\'', '\\', '"', '~', '\n', '\u007f', '\u00e9', '\ud800'},
                new double[] {Double.NaN, 1}, new float[] {Float.NaN, 1}, new long[] {-1, 0}, new short[] {-1},
                new boolean[] {true, false}, new int[][] {{1, 2}, null, {}}, new Above[] {new Above(), this, null},
                new String[] {"", "a\"b\\", "\n\r\t\u0001\u007f", "\u00e9\ud83d\ude00", "\ud800"},
                new Object[] {7, thread, thread.getThreadGroup(), thread.getContextClassLoader(), Thread.class, null},
            };
        }
    }

    public static void main(String[] words) throws Exception {
        System.out.println("up");
        System.in.read();
        int[] elements = IntStream.range(0, 25_000).toArray();
        Below below = new Below(words, elements);
        Thread other = new Thread(below);
        other.start();
        other.join();
    }
}
