package se.sics.tac.aw;

import java.util.ArrayList;
import java.util.List;

/** A bid in one auction. It is submitted once; one that was rejected may be submitted again. */
public class Bid {
  public static final int NO_ID = -1;

  public static final int PRELIMINARY = 0;
  public static final int UNPROCESSED = 1;
  public static final int VALID = 2;
  public static final int REJECTED = 3;
  public static final int WITHDRAWN = 4;
  public static final int TRANSACTED = 5;
  public static final int REPLACED = 6;
  public static final int EXPIRED = 7;

  public static final int NOT_REJECTED = 0;
  public static final int SELL_NOT_ALLOWED = 1;
  public static final int PRICE_NOT_BEAT = 2;
  public static final int ACTIVE_BID_CHANGED = 3;
  public static final int SELF_CROSS = 4; // the layer's own

  private static final String[] STATES = {"preliminary", "unprocessed", "valid", "rejected",
      "withdrawn", "transacted", "replaced", "expired"};
  private static final String[] REASONS = {"not rejected", "selling is not allowed",
      "the price does not beat the quote", "the bid to be replaced has changed",
      "buys at or above its own selling price"};

  private final int auction;
  private final List<Point> written = new ArrayList<>(); // by the agent
  // TACAgent writes these; other threads may read them.
  volatile List<Point> standing = List.of(); // in whole dollars, as far as the layer knows
  volatile int id = NO_ID;
  volatile int state = PRELIMINARY;
  volatile int reason = NOT_REJECTED;
  volatile int line; // the number of the request line that asked for it

  public Bid(int auction) {
    if (auction < 0 || auction >= Auctions.AUCTIONS) {
      throw new IllegalArgumentException("no auction " + auction);
    }
    this.auction = auction;
  }

  /** Adds units, above 0 to buy and below 0 to sell, at a price in dollars for each. */
  public synchronized void addBidPoint(int quantity, float price) {
    mayChange();
    written.add(new Point(quantity, price));
  }

  /** Fails if the bid was submitted before and not rejected. */
  void mayChange() {
    if (state != PRELIMINARY && state != REJECTED) {
      throw new IllegalStateException("submitted before: " + this);
    }
  }

  /** The points as written until the bid is admitted, and from then on what stands of them. */
  synchronized List<Point> points() {
    return state == VALID || state == TRANSACTED ? standing : new ArrayList<>(written);
  }

  public int getAuction() {
    return auction;
  }

  public int getID() {
    return id;
  }

  public boolean isPreliminary() {
    return state == PRELIMINARY;
  }

  public boolean isRejected() {
    return state == REJECTED;
  }

  /** Whether some of it stands. */
  public boolean isActive() {
    return state == VALID;
  }

  public int getProcessingState() {
    return state;
  }

  public String getProcessingStateAsString() {
    return STATES[state];
  }

  public int getRejectReason() {
    return reason;
  }

  public String getRejectReasonAsString() {
    return REASONS[reason];
  }

  public int getNoBidPoints() {
    return points().size();
  }

  public int getQuantity(int point) {
    return points().get(point).quantity;
  }

  public float getPrice(int point) {
    return points().get(point).price;
  }

  /** The units that it buys less those that it sells. */
  public int getQuantity() {
    return points().stream().mapToInt(point -> point.quantity).sum();
  }

  public String getBidString() {
    return Point.text(points());
  }

  /** The bid's string: there is no other mark of what stands. */
  public String getBidHash() {
    return getBidString();
  }

  @Override
  public String toString() {
    return "Bid[" + id + ", auction " + auction + ", " + getBidString() + ", "
        + getProcessingStateAsString() + "]";
  }
}
