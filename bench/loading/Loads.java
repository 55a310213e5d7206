package loading;

import java.io.ByteArrayOutputStream;
import java.io.DataOutputStream;
import java.io.IOException;

/**
 * Loads classes that it makes itself, and comes to one line again and again.
 *
 * <p>usage: java loading.Loads BEFORE ROUNDS BEHIND: loads so many classes in packages of their own, prints a line and
 * waits for one, comes to one line as many times as ROUNDS says, loads so many classes of this package, and prints how
 * many milliseconds these took.
 */
public class Loads {
    private static final int PACKAGES = 10;

    /** Defines classes with nothing in them but the name of their source. */
    private static class Loader extends ClassLoader {
        @Override
        protected Class<?> findClass(String name) throws ClassNotFoundException {
            try {
                byte[] bytes = bytesOf(name.replace('.', '/'), name.substring(name.lastIndexOf('.') + 1) + ".java");
                return defineClass(name, bytes, 0, bytes.length);
            } catch (IOException trouble) {
                throw new ClassNotFoundException(name, trouble);
            }
        }
    }

    /** The file of a class (JVMS, section 4.1). */
    private static byte[] bytesOf(String name, String source) throws IOException {
        ByteArrayOutputStream bytes = new ByteArrayOutputStream();
        DataOutputStream file = new DataOutputStream(bytes);
        file.writeInt(0xCAFEBABE);
        file.writeInt(52);
        String[] texts = {name, "java/lang/Object", "SourceFile", source};
        file.writeShort(texts.length + 3);
        for (int place : new int[] {3, 4}) {
            file.writeByte(7);
            file.writeShort(place);
        }
        for (String text : texts) {
            file.writeByte(1);
            file.writeUTF(text);
        }
        // public, with `super`; itself, its superclass; no interfaces, fields or methods; its source
        for (int number : new int[] {0x21, 1, 2, 0, 0, 0, 1, 5, 0, 2, 6}) {
            file.writeShort(number);
        }
        return bytes.toByteArray();
    }

    private static void load(Loader loader, String name) throws ClassNotFoundException {
        Class.forName(name, true, loader);
    }

    private static long sumOf(int rounds) {
        long sum = 0;
        for (int round = 1; round <= rounds; round++) {
            sum += round;
        }
        return sum;
    }

    public static void main(String[] words) throws Exception {
        int before = Integer.parseInt(words[0]);
        int rounds = Integer.parseInt(words[1]);
        int behind = Integer.parseInt(words[2]);
        Loader loader = new Loader();
        for (int number = 0; number < before; number++) {
            load(loader, "other.p" + number % PACKAGES + ".C" + number);
        }
        System.out.println("up");
        System.in.read();
        long sum = sumOf(rounds);
        long start = System.nanoTime();
        for (int number = 0; number < behind; number++) {
            load(loader, "loading.C" + number);
        }
        System.out.printf("sum %d, loaded in %.3f ms%n", sum, (System.nanoTime() - start) / 1e6);
    }
}
