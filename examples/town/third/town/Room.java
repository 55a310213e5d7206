package town;

/** A room. */
public class Room {
    private final int length;
    private final int width;

    Room(int length, int width) {
        this.length = length;
        this.width = width;
    }

    int area() {
        return length * width;
    }
}
