package stops;

/** Prints `up` and waits for a line. Then it calls two methods of one name, and one of a class that it loads there. */
public class Named {
    /** A class that is loaded where it is called first. */
    static class Guest {
        static void speak() {
            System.out.println("guest");
        }
    }

    private static void speak(int number) {
        System.out.println(number);
    }

    private static void speak(String text) {
        System.out.println(text);
    }

    public static void main(String[] words) throws Exception {
        System.out.println("up");
        System.in.read();
        speak(1);
        speak("host");
        Guest.speak();
    }
}
