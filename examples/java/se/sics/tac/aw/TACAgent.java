package se.sics.tac.aw;

import java.util.ArrayList;
import java.util.Arrays;
import java.util.List;

/**
 * What an agent knows and asks. A bid is answered before submitBid returns; its callback comes a
 * little later, on the thread of all callbacks. Any thread may call these methods.
 */
public class TACAgent extends Auctions {
  public static final int ARRIVAL = 0;
  public static final int DEPARTURE = 1;
  public static final int HOTEL_VALUE = 2;
  public static final int E1 = 3;
  public static final int E2 = 4;
  public static final int E3 = 5;

  public static final int NO_ERROR = 0;
  public static final int GAME_COMPLETE = 10;
  public static final int AUCTION_CLOSED = 12;
  public static final int BID_NOT_FOUND = 13;
  public static final int CANNOT_WITHDRAW_BID = 15;
  public static final int BAD_BIDSTRING_FORMAT = 16;
  public static final int NOT_SUPPORTED = 17;

  static final int CLIENTS = 8;
  private static final int PREFERENCES = 6;
  private static final int CALLS = 1024; // of an agent in an auction
  private static final int FOR_BIDS = 100; // of these the layer's own readings leave
  private static final int FOR_THE_END = 4; // and bids leave

  private final AgentImpl impl;
  private final String word;
  private final int[] own = new int[AUCTIONS];
  private final int[] allocation = new int[AUCTIONS];
  private final int[] calls = new int[AUCTIONS];
  private final int[] seen = new int[AUCTIONS]; // entries up to the layer's last call, with it
  private final Quote[] quotes = new Quote[AUCTIONS];
  private final Bid[] bids = new Bid[AUCTIONS]; // the last that were admitted
  private final List<Runnable> callbacks = new ArrayList<>(); // that are due
  private int[][] preferences = new int[CLIENTS][PREFERENCES];
  private Link link;
  private GameClock clock = new GameClock(0);
  private int games;
  private int submitted;
  private boolean active;

  TACAgent(AgentImpl impl, String word) {
    this.impl = impl;
    this.word = word;
  }

  /** Plays: see the page of the layer for the words of the command line. */
  public static void main(String[] words) {
    Launcher.main(words);
  }

  /** Begins a game. One object serves all games of the process. */
  synchronized void begin(Link link, GameClock clock, int[] tickets, int[][] preferences) {
    this.link = link;
    this.clock = clock;
    this.preferences = preferences;
    games++;
    active = true;
    callbacks.clear();
    for (int[] numbers : List.of(own, allocation, calls, seen)) {
      Arrays.fill(numbers, 0);
    }
    Arrays.fill(quotes, null);
    Arrays.fill(bids, null);
    System.arraycopy(tickets, 0, own, TICKETS, tickets.length);
    for (int auction = 0; auction < AUCTIONS; auction++) {
      look(auction);
    }
  }

  public synchronized int getClientPreference(int client, int type) {
    return preferences[client][type];
  }

  /** Units held. What a standing bid has traded is noticed within a third of a tick. */
  public synchronized int getOwn(int auction) {
    return own[auction];
  }

  /** Units held, and those of a hotel bid that would be won by the last count. */
  public synchronized int getProbableOwn(int auction) {
    Quote quote = quotes[auction];
    boolean counted =
        quote != null && !quote.isAuctionClosed() && quote.hasHQW(getBid(auction));
    return own[auction] + (counted ? quote.getHQW() : 0);
  }

  public synchronized int getAllocation(int auction) {
    return allocation[auction];
  }

  public synchronized void setAllocation(int auction, int units) {
    allocation[auction] = units;
  }

  public synchronized void clearAllocation() {
    Arrays.fill(allocation, 0);
  }

  /** The agent's bid that stands there, or null. */
  public synchronized Bid getBid(int auction) {
    return bids[auction] != null && bids[auction].isActive() ? bids[auction] : null;
  }

  /** The last look at the auction; null before the first game. */
  public synchronized Quote getQuote(int auction) {
    return quotes[auction];
  }

  /** The number of the game in this process, from 1. */
  public synchronized int getGameID() {
    return games;
  }

  /** Milliseconds of a game of nine minutes, whatever the host's pace is. */
  public int getGameLength() {
    return GameClock.LENGTH;
  }

  public synchronized long getGameTime() {
    return clock.time();
  }

  public synchronized long getGameTimeLeft() {
    return GameClock.LENGTH - clock.time();
  }

  public synchronized boolean isGameActive() {
    return active;
  }

  /** The agent's seat word. */
  public String getAgent() {
    return word;
  }

  public static String commandStatusToString(int status) {
    switch (status) {
      case NO_ERROR:
        return "no error";
      case GAME_COMPLETE:
        return "the game is over";
      case AUCTION_CLOSED:
        return "the auction is closed";
      case BID_NOT_FOUND:
        return "no such bid stands";
      case CANNOT_WITHDRAW_BID:
        return "a hotel bid cannot be withdrawn";
      case BAD_BIDSTRING_FORMAT:
        return "the points are refused";
      case NOT_SUPPORTED:
        return "the calls of the auction are spent";
      default:
        return "status " + status;
    }
  }

  /**
   * Bids: an admitted bid replaces the whole earlier one there. One whose points all round away
   * withdraws the earlier one, except in a hotel.
   */
  public synchronized void submitBid(Bid bid) {
    bid.mayChange();
    int auction = bid.getAuction();
    List<Point> points = Point.whole(bid.points());
    bid.id = ++submitted;
    bid.state = Bid.UNPROCESSED;
    bid.reason = Bid.NOT_REJECTED;
    if (!active) {
      fail(bid, GAME_COMPLETE);
    } else if (spent(auction, FOR_THE_END)) {
      fail(bid, NOT_SUPPORTED);
    } else if (!points.isEmpty()) {
      String[] reply = bidding(bid, points);
      if (reply == null) {
        later(() -> impl.bidUpdated(bid)); // it was admitted, and its link was lost
      } else if (reply[1].equals("taken")) {
        admit(bid, points, reply);
      } else {
        refuse(bid, reply[0].equals("no") ? reply[1] : reply[2]);
      }
    } else if (getBid(auction) != null && !isHotel(auction)) {
      withdrawBid(getBid(auction));
      bid.state = Bid.WITHDRAWN;
    } else {
      fail(bid, BAD_BIDSTRING_FORMAT);
    }
  }

  /**
   * As submitBid, if a look shows that the earlier bid stands as it did. A trade may still come
   * between the look and the bid.
   */
  public synchronized void replaceBid(Bid earlier, Bid bid) {
    int auction = bid.getAuction();
    if (earlier != null && earlier.isActive() && !isHotel(auction)) {
      String before = earlier.getBidString();
      look(auction);
      readOwnIfOthersCalled(auction);
      if (!earlier.isActive() || !earlier.getBidString().equals(before)) {
        bid.mayChange();
        bid.id = ++submitted;
        refuse(bid, "changed");
        return;
      }
    }
    submitBid(bid);
  }

  public synchronized void withdrawBid(Bid bid) {
    int auction = bid.getAuction();
    if (isHotel(auction)) {
      later(() -> impl.bidError(bid, CANNOT_WITHDRAW_BID));
    } else if (bid != getBid(auction) || spent(auction, FOR_THE_END)) {
      later(() -> impl.bidError(bid, BID_NOT_FOUND));
    } else {
      String[] reply = call(auction, "withdraw " + auction).split(" ");
      boolean done = reply[1].equals("done");
      if (done && position(reply) == seen[auction]) {
        seen[auction]++;
      } else {
        readOwn(auction); // some of it may have been traded just before
      }
      if (done) {
        bid.state = Bid.WITHDRAWN;
        later(() -> impl.bidUpdated(bid));
      }
    }
  }

  /**
   * Bids, and returns the reply. If the link is lost, what the agent has tells whether the bid was
   * admitted: then null is returned, and otherwise it bids again.
   */
  private String[] bidding(Bid bid, List<Point> points) {
    int auction = bid.getAuction();
    while (true) {
      try {
        return call(auction, "bid " + auction + " " + Point.text(points)).split(" ");
      } catch (Link.Unanswered lost) {
        if (isFound(bid)) {
          return null;
        }
      }
    }
  }

  /** Reads whether a bid was admitted, which was not answered: then something else stands or is
   * owned there than before. */
  private boolean isFound(Bid bid) {
    int auction = bid.getAuction();
    String[] reply = call(auction, "own " + auction).split(" ", 4);
    Bid earlier = getBid(auction);
    String stood = Point.text(earlier == null ? List.of() : earlier.standing);
    if (!reply[1].equals("own")
        || Integer.parseInt(reply[2]) == own[auction] && reply[3].equals(stood)) {
      return false;
    }
    if (earlier != null) {
      earlier.state = Bid.REPLACED;
    }
    seen[auction] = position(reply) + 1;
    own[auction] = Integer.parseInt(reply[2]);
    bids[auction] = bid;
    bid.line = link.sent();
    bid.standing = Point.read(reply[3]);
    bid.state = bid.standing.isEmpty() ? Bid.TRANSACTED : Bid.VALID;
    return true;
  }

  private void admit(Bid bid, List<Point> points, String[] reply) {
    int auction = bid.getAuction();
    int bought = Integer.parseInt(reply[2]);
    int sold = Integer.parseInt(reply[3]);
    int units = Point.units(points);
    Bid earlier = getBid(auction);
    boolean othersCalled = earlier != null && position(reply) != seen[auction];
    if (earlier != null) {
      earlier.state = Bid.REPLACED;
    }
    seen[auction] = position(reply) + 1;
    bids[auction] = bid;
    own[auction] += bought - sold;
    bid.line = link.sent();
    boolean whole = bought + sold == units;
    bid.standing = whole ? List.of() : points;
    bid.state = whole ? Bid.TRANSACTED : Bid.VALID;
    if (!isHotel(auction) && (othersCalled || !whole && bought + sold > 0)) {
      readOwn(auction); // the earlier bid may have traded too, or only a part of this stands
    }
    later(() -> impl.bidUpdated(bid));
  }

  private void refuse(Bid bid, String why) {
    switch (why) {
      case "closed":
        fail(bid, AUCTION_CLOSED);
        return;
      case "bid":
        fail(bid, BAD_BIDSTRING_FORMAT);
        return;
      case "spent":
        fail(bid, NOT_SUPPORTED);
        return;
      case "belowquote":
        bid.reason = Bid.PRICE_NOT_BEAT;
        break;
      case "sell":
        bid.reason = Bid.SELL_NOT_ALLOWED;
        break;
      case "selfcross":
        bid.reason = Bid.SELF_CROSS;
        break;
      case "changed":
        bid.reason = Bid.ACTIVE_BID_CHANGED;
        break;
      default:
        throw new IllegalStateException("a refusal of no known form: " + why);
    }
    bid.state = Bid.REJECTED;
    later(() -> impl.bidRejected(bid));
  }

  private void fail(Bid bid, int status) {
    bid.state = Bid.REJECTED;
    later(() -> impl.bidError(bid, status));
  }

  /** Looks at an auction; what was counted of the agent's bid there is kept. */
  synchronized Quote look(int auction) {
    Quote quote = Quote.read(auction, link.ask("quote " + auction));
    quotes[auction] = quotes[auction] == null ? quote : quote.countingAs(quotes[auction]);
    return quotes[auction];
  }

  /** Reads the holding where a bid stands and, by the last look, others called since the layer. */
  synchronized void readOwnIfOthersCalled(int auction) {
    boolean others = quotes[auction].entries > seen[auction];
    if (getBid(auction) != null && others && !spent(auction, FOR_BIDS)) {
      readOwn(auction);
    }
  }

  /** Reads the holding, and what stands. */
  synchronized void readOwn(int auction) {
    String[] reply = call(auction, "own " + auction).split(" ", 4);
    if (!reply[1].equals("own")) {
      return; // the calls are spent
    }
    int before = own[auction];
    own[auction] = Integer.parseInt(reply[2]);
    seen[auction] = position(reply) + 1;
    Bid bid = getBid(auction);
    if (bid != null && !reply[3].equals(Point.text(bid.standing))) {
      bid.standing = Point.read(reply[3]);
      if (bid.standing.isEmpty()) {
        bid.state = own[auction] == before ? Bid.EXPIRED : Bid.TRANSACTED;
      }
      later(() -> impl.bidUpdated(bid));
    }
  }

  /**
   * Counts how many units of the standing bid in a hotel would be won. The published price is the
   * greatest at which as many units stand as there are rooms. So of the bids that stood at its
   * publication each unit above it is won, and each below is lost; only for units exactly at it an
   * order decides. Then, or if it is not sure that the bid stood, a bid that is sure to be refused
   * asks: its NEED is the count, except that 1 is told for 0 as well. That 1 counts as 1 if quotes
   * are live, where the unit at the price is most often the agent's own last one, so that it does
   * not outbid itself; and else as 0, so that it raises its bid.
   *
   * @param line the number of the last request line that surely came before the publication
   * @param asks whether to ask in any case
   */
  synchronized void countWinning(int auction, boolean live, int line, boolean asks) {
    Bid bid = getBid(auction);
    if (bid == null) {
      return;
    }
    float price = quotes[auction].getAskPrice();
    boolean stood = live || bid.line <= line;
    boolean tie = bid.standing.stream().anyMatch(point -> point.price == price);
    int above = bid.standing.stream().filter(point -> point.price > price)
        .mapToInt(point -> point.quantity).sum();
    int count = stood ? above : -1;
    // A published price never falls, so from 1 on the bid below is refused; at 0 it would replace
    // the standing one.
    if ((tie || !stood || asks) && price >= 1 && !spent(auction, FOR_BIDS)) {
      String[] reply = refusedBid(auction);
      int need = reply[2].equals("belowquote") ? Integer.parseInt(reply[3]) : 0;
      if (need > 1) {
        count = need;
      } else if (need == 1 && stood) {
        count = above > 0 || live && tie ? 1 : 0;
      }
    }
    quotes[auction] = quotes[auction].counting(bid, count);
  }

  /** Makes the bid that is sure to be refused, again if its link was lost, and returns the reply. */
  private String[] refusedBid(int auction) {
    while (true) {
      try {
        return call(auction, "bid " + auction + " ((1 1))").split(" ");
      } catch (Link.Unanswered lost) {
        // nothing was admitted
      }
    }
  }

  /** The agent's net dollars. */
  synchronized String cash() {
    String reply = link.ask("cash");
    return reply.substring(reply.lastIndexOf(' ') + 1);
  }

  synchronized void stop() {
    active = false;
    clock.stop();
  }

  /** Takes the callbacks that are due. */
  synchronized List<Runnable> takeCallbacks() {
    List<Runnable> taken = new ArrayList<>(callbacks);
    callbacks.clear();
    return taken;
  }

  private synchronized void later(Runnable callback) {
    callbacks.add(callback);
  }

  private String call(int auction, String request) {
    calls[auction]++;
    return link.ask(request);
  }

  /** Whether no more than so many calls of the auction are left. */
  private boolean spent(int auction, int left) {
    return calls[auction] >= CALLS - left;
  }

  private static int position(String[] reply) {
    return Integer.parseInt(reply[0].substring(1));
  }

  private static boolean isHotel(int auction) {
    return getAuctionCategory(auction) == CAT_HOTEL;
  }
}
