package se.sics.tac.aw;

/** What was seen of an auction in one look. A later look makes another quote. */
public class Quote {
  public static final int AUCTION_INITIALIZING = 0;
  public static final int AUCTION_INTERMEDIATE_CLEAR = 1;
  public static final int AUCTION_FINAL_CLEAR = 2;
  public static final int AUCTION_CLOSED = 3;

  private static final int UNKNOWN = -1;
  private static final String[] STATUSES =
      {"initializing", "intermediate clear", "final clear", "closed"};

  private final int auction;
  private final int bidPrice;
  private final int askPrice;
  private final boolean closed;
  private final Bid counted; // the bid of which `hqw` counts units, or null
  private final int hqw;
  final int entries; // of the auction's history that the board shows

  private Quote(int auction, int entries, int bidPrice, int askPrice, boolean closed, Bid counted,
      int hqw) {
    this.auction = auction;
    this.entries = entries;
    this.bidPrice = bidPrice;
    this.askPrice = askPrice;
    this.closed = closed;
    this.counted = counted;
    this.hqw = hqw;
  }

  /** Reads a reply such as `@9 quote 70 0 open`. */
  static Quote read(int auction, String reply) {
    String[] words = reply.split(" ");
    return new Quote(auction, Integer.parseInt(words[0].substring(1)), Integer.parseInt(words[2]),
        Integer.parseInt(words[3]), words[4].equals("closed"), null, UNKNOWN);
  }

  /** The same quote, with so many winning units of the bid; a number below 0 is none known. */
  Quote counting(Bid bid, int units) {
    return new Quote(auction, entries, bidPrice, askPrice, closed, units < 0 ? null : bid,
        Math.max(UNKNOWN, units));
  }

  /** The same quote, with what an earlier one counted. */
  Quote countingAs(Quote earlier) {
    return counting(earlier.counted, earlier.hqw);
  }

  boolean differs(Quote other) {
    return bidPrice != other.bidPrice || askPrice != other.askPrice || closed != other.closed;
  }

  public int getAuction() {
    return auction;
  }

  /** A flight's or a hotel's price; the lowest standing offer of tickets, 0 if there is none. */
  public float getAskPrice() {
    return askPrice;
  }

  /** The highest standing bid for tickets, 0 if there is none; 0 for flights and hotels. */
  public float getBidPrice() {
    return bidPrice;
  }

  /** How many units of the agent's bid in a hotel would be won, or -1 if that is not known. */
  public int getHQW() {
    return hqw;
  }

  /** Whether getHQW counts this bid. */
  public boolean hasHQW(Bid bid) {
    return bid != null && bid == counted;
  }

  public boolean isAuctionClosed() {
    return closed;
  }

  public int getAuctionStatus() {
    return closed ? AUCTION_CLOSED : AUCTION_INTERMEDIATE_CLEAR;
  }

  public String getAuctionStatusAsString() {
    return STATUSES[getAuctionStatus()];
  }

  @Override
  public String toString() {
    return "Quote[auction " + auction + ", bid " + bidPrice + ", ask " + askPrice + ", HQW " + hqw
        + ", " + getAuctionStatusAsString() + "]";
  }
}
