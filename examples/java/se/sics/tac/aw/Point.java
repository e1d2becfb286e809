package se.sics.tac.aw;

import java.util.ArrayList;
import java.util.List;

/** A point of a bid: units, above 0 to buy and below 0 to sell, and dollars for each of them. */
final class Point {
  private static final int LEAST = 1; // dollars in a bid
  private static final int MOST = 10000;

  final int quantity;
  final float price;

  Point(int quantity, float price) {
    this.quantity = quantity;
    this.price = price;
  }

  /**
   * The points in whole dollars: buying prices are rounded down and selling prices up, so that no
   * trade is worse than the agent wrote. What no price of a bid expresses is left out: to buy below
   * 1 dollar, to sell above 10000, no units.
   */
  static List<Point> whole(List<Point> points) {
    List<Point> whole = new ArrayList<>();
    for (Point point : points) {
      double price = point.quantity > 0 ? Math.min(MOST, Math.floor(point.price))
          : Math.max(LEAST, Math.ceil(point.price));
      if (point.quantity != 0 && price >= LEAST && price <= MOST) { // false for NaN
        whole.add(new Point(point.quantity, (float) price));
      }
    }
    return whole;
  }

  /** The text of points, such as `((2 70) (1 65))`; a price that is not whole has decimals. */
  static String text(List<Point> points) {
    List<String> texts = new ArrayList<>();
    for (Point point : points) {
      boolean whole = point.price == (int) point.price;
      String price = whole ? String.valueOf((int) point.price) : String.valueOf(point.price);
      texts.add("(" + point.quantity + " " + price + ")");
    }
    return "(" + String.join(" ", texts) + ")";
  }

  /** Reads the points of a reply. */
  static List<Point> read(String text) {
    String[] numbers = text.replaceAll("[()]", " ").trim().split(" +");
    List<Point> points = new ArrayList<>();
    for (int place = 0; place + 1 < numbers.length; place += 2) {
      points.add(
          new Point(Integer.parseInt(numbers[place]), Integer.parseInt(numbers[place + 1])));
    }
    return points;
  }

  /** How many units the points have, bought and sold ones counted alike. */
  static int units(List<Point> points) {
    return points.stream().mapToInt(point -> Math.abs(point.quantity)).sum();
  }
}
