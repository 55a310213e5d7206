package kitchen;

import java.util.ArrayList;
import java.util.List;

/** A pot, which is filled. */
public class Pot {
    private final List<String> inside = new ArrayList<>();

    public void add(String thing) {
        inside.add(thing);
    }

    public String soup() {
        return "soup of " + String.join(" and ", inside);
    }
}
