package town;

import java.util.ArrayDeque;
import java.util.ArrayList;
import java.util.Arrays;
import java.util.Collections;
import java.util.HashMap;
import java.util.HashSet;
import java.util.LinkedHashMap;
import java.util.LinkedHashSet;
import java.util.LinkedList;
import java.util.List;
import java.util.Map;
import java.util.PriorityQueue;
import java.util.Set;
import java.util.TreeMap;
import java.util.TreeSet;
import java.util.Vector;
import java.util.concurrent.ConcurrentHashMap;
import java.util.concurrent.CopyOnWriteArrayList;

/** Collections of the library, and fractions. */
public class Cupboards {
    private static <T> Map<T, Integer> counted(Map<T, Integer> map, List<T> keys) {
        keys.forEach(key -> map.put(key, map.size()));
        return map;
    }

    static void look() {
        List<String> three = Arrays.asList("a", "b", "c");
        List<String> array = new ArrayList<>(three);
        List<String> linked = new LinkedList<>(three);
        List<String> vector = new Vector<>(three);
        List<String> copied = new CopyOnWriteArrayList<>(three);
        List<String> of2 = List.of("a", "b");
        List<String> of3 = List.of("a", "b", "c");
        List<String> only = Collections.singletonList("a");
        List<String> fixed = Collections.unmodifiableList(array);
        List<String> empty = new ArrayList<>();
        ArrayDeque<String> ring = new ArrayDeque<>(16);
        for (int i = 0; i < 15; i++) {
            ring.addLast("-");
            ring.removeFirst();
        }
        ring.addAll(three);
        PriorityQueue<String> heap = new PriorityQueue<>(three);
        Set<String> hashed = new HashSet<>(three);
        Set<String> ordered = new LinkedHashSet<>(three);
        Set<String> sorted = new TreeSet<>(three);
        Set<String> set1 = Set.of("a");
        Set<String> setOf3 = Set.of("a", "b", "c");
        Map<String, Integer> map = counted(new HashMap<>(), three);
        Map<String, Integer> kept = counted(new LinkedHashMap<>(), Arrays.asList("c", "a", "b"));
        Map<String, Integer> tree = counted(new TreeMap<>(), Arrays.asList("c", "a", "b"));
        Map<String, Integer> shared = counted(new ConcurrentHashMap<>(), three);
        Map<String, Integer> map1 = Map.of("a", 0);
        Map<String, Integer> mapOf3 = Map.of("a", 0, "b", 1, "c", 2);
        Map<List<String>, Integer> keyed = new HashMap<>();
        keyed.put(three, 7);
        List<Integer> many = new ArrayList<>();
        for (int i = 0; i < 20_000; i++) {
            many.add(i);
        }
        List<Integer> chain = new LinkedList<>(many.subList(0, 150));
        float third = 1f / 3;
        double[] fractions = {0.1, 1e-5, 1e7, -0.0, 100, Double.MIN_VALUE, Double.MAX_VALUE, Double.NaN, -1 / 0.0};
        float[] floats = {0.1f, 16777216f, Float.MAX_VALUE, Float.MIN_VALUE, Float.POSITIVE_INFINITY};
        System.out.println(third + " " + Arrays.toString(fractions) + " " + Arrays.toString(floats));
        System.out.println(array.get(0) + linked.get(1) + map.get("b") + many.size() + chain.size());
    }
}
