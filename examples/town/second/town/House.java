package town;

import java.util.Arrays;

/** A house, whose rooms are added up by a stream of the library. */
public class House {
    private final String name;
    private final Room[] rooms;

    House(String name, Room... rooms) {
        this.name = name;
        this.rooms = rooms;
    }

    String name() {
        return name;
    }

    int area() {
        return Arrays.stream(rooms).mapToInt(Room::area).sum();
    }
}
