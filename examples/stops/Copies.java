package stops;

import java.net.URL;
import java.net.URLClassLoader;

/** Prints `up` and waits for a line. Then it loads a class anew and calls it, as many times as the first word says. */
public class Copies {
    /** A class that is loaded by loaders of its own. */
    public static class Guest {
        public static void speak() {
            System.out.println("a copy");
        }
    }

    private static void callCopy() throws Exception {
        URL[] roots = {Copies.class.getProtectionDomain().getCodeSource().getLocation()};
        try (URLClassLoader loader = new URLClassLoader(roots, null)) {
            loader.loadClass("stops.Copies$Guest").getMethod("speak").invoke(null);
        }
    }

    public static void main(String[] words) throws Exception {
        int last = Integer.parseInt(words[0]);
        System.out.println("up");
        System.in.read();
        for (int copy = 1; copy <= last; copy++) {
            callCopy();
        }
    }
}
