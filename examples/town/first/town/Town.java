package town;

import java.util.List;

/** A town whose sources stand in three roots. Its street is walked through calls of the library. */
public class Town {
    static String described(House house) {
        return house.name() + " of " + house.area();
    }

    static void walk(List<House> street) {
        for (House house : street) {
            String line = String.valueOf(street.size()).concat(described(house));
            System.out.println(line);
        }
        System.err.println("walked");
    }

    public static void main(String[] words) throws InterruptedException {
        House corner = new House("corner", new Room(3, 4), new Room(2, 2));
        walk(List.of(corner, new House("shed", new Room(1, 1))));
        Cupboards.look();
        if (words.length > 0) {
            Thread.sleep(Long.parseLong(words[0]));
        }
        System.out.println("the end of the street");
        System.exit(words.length > 1 ? 3 : 0);
    }
}
