package kitchen;

import static org.junit.Assert.assertEquals;

import org.junit.Test;

public class PotTest {
    @Test
    public void aPotMakesSoup() {
        Pot pot = new Pot();
        pot.add("leek");
        pot.add("pea");
        assertEquals("soup of leek and pea", pot.soup());
    }
}
