package shop;

import java.util.ArrayList;
import java.util.List;

/**
 * A small shop, to try a debugger on: it adds up orders, refuses one, delivers the others, and waits until its door is
 * closed, which only a debugger does.
 */
public class Orders {
    /** So many pieces of one thing. */
    static class Line {
        private final String thing;
        private final int price;
        private int pieces;

        Line(String thing, int price, int pieces) {
            this.thing = thing;
            this.price = price;
            this.pieces = pieces;
        }

        int cost() {
            return price * pieces;
        }
    }

    /** What one customer wants. */
    static class Order {
        private final String customer;
        private final Line[] lines;
        private boolean isPaid;

        Order(String customer, Line... lines) {
            this.customer = customer;
            this.lines = lines;
        }

        int total() {
            int total = 0;
            for (Line line : lines) {
                int cost = line.cost();
                total += cost;
            }
            return total;
        }

        void pay(int purse) {
            if (total() > purse) {
                throw new IllegalStateException(customer + " can't pay " + total());
            }
            isPaid = true;
        }
    }

    private final List<Order> orders = new ArrayList<>();
    private volatile boolean isOpen = true;
    private int delivered;

    private void take(Order order) {
        orders.add(order);
        System.out.println(order.customer + " wants things for " + order.total());
    }

    private void settle(Order order, int purse) {
        try {
            order.pay(purse);
        } catch (IllegalStateException refused) {
            System.out.println("refused: " + refused.getMessage());
        }
    }

    private void deliver(Order order) {
        delivered++;
        System.out.println("delivered to " + order.customer);
    }

    private void waitForTheDoor() throws InterruptedException {
        int naps = 0;
        while (isOpen) {
            Thread.sleep(20);
            naps++;
        }
        System.out.println("closed after " + (naps > 0 ? "some naps" : "no nap"));
    }

    public static void main(String[] words) throws InterruptedException {
        Orders shop = new Orders();
        shop.take(new Order("Ada", new Line("apple", 2, 5), new Line("pear", 3, 4)));
        shop.take(new Order("Bob", new Line("bread", 4, 2)));
        for (Order order : shop.orders) {
            shop.settle(order, 20);
        }
        for (Order order : shop.orders) {
            if (order.isPaid) {
                shop.deliver(order);
            }
        }
        shop.waitForTheDoor();
        System.out.println(shop.delivered + " delivered");
    }
}
