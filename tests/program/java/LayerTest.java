import java.io.BufferedReader;
import java.io.IOException;
import java.io.InputStreamReader;
import java.io.UncheckedIOException;
import java.net.ConnectException;
import java.net.Socket;
import java.nio.charset.StandardCharsets;
import java.util.ArrayList;
import java.util.List;
import se.sics.tac.aw.AgentImpl;
import se.sics.tac.aw.Bid;
import se.sics.tac.aw.Quote;
import se.sics.tac.aw.TACAgent;
import se.sics.tac.util.ArgEnumerator;

/**
 * An agent that tests the layer from within, in a game whose nights have 16 rooms and whose quotes
 * are by the minute. The other seats are links of its own process, which bid when it tells them to.
 * It prints a line for each fault, and last how many tests it made.
 */
public class LayerTest extends AgentImpl {
  private static final int ROOM = 11; // in which the other agents bid too
  private static final int REJECTED_AGAIN = 10; // a hotel in which bidRejected bids again
  private static final int MOST_TRIES = 600; // to connect
  private static final int BETWEEN_TRIES = 100; // ms

  /** A link of another seat. */
  private static final class Other {
    private final Socket socket;
    private final BufferedReader lines;

    /** Connects to the server, which may still be starting. */
    Other(int port, int seat) throws IOException, InterruptedException {
      Socket connected = null;
      for (int tries = 1; connected == null; tries++) {
        try {
          connected = new Socket("localhost", port);
        } catch (ConnectException e) {
          if (tries == MOST_TRIES) {
            throw e;
          }
          Thread.sleep(BETWEEN_TRIES);
        }
      }
      socket = connected;
      lines = new BufferedReader(
          new InputStreamReader(socket.getInputStream(), StandardCharsets.US_ASCII));
      send("hello seat" + seat);
    }

    private void send(String line) throws IOException {
      socket.getOutputStream().write((line + "\n").getBytes(StandardCharsets.US_ASCII));
    }

    /** Reads the ten lines, which come when all are there. */
    void begin() throws IOException {
      for (int line = 0; line < 10; line++) {
        lines.readLine();
      }
    }

    void ask(String request) {
      try {
        send(request);
        lines.readLine();
      } catch (IOException e) {
        throw new UncheckedIOException(e);
      }
    }
  }

  private final Other[] others = new Other[8]; // from seat 1
  private final List<String> heard = new ArrayList<>();
  private int tests;
  private int faults;
  private int ticket; // of which the agent has two
  private int loops;
  private boolean tried;

  private void check(boolean holds, String what) {
    tests++;
    if (!holds) {
      faults++;
      System.out.println("fault: " + what);
    }
  }

  /** Submits a bid of points, each its units and its dollars. */
  private Bid bid(int auction, float... numbers) {
    Bid bid = new Bid(auction);
    for (int place = 0; place < numbers.length; place += 2) {
      bid.addBidPoint((int) numbers[place], numbers[place + 1]);
    }
    agent.submitBid(bid);
    return bid;
  }

  @Override
  protected void init(ArgEnumerator args) {
    int port = args.getArgumentAsInt("port", 7000);
    for (int seat = 1; seat < others.length; seat++) {
      try {
        others[seat] = new Other(port, seat);
      } catch (IOException e) {
        throw new UncheckedIOException(e);
      } catch (InterruptedException e) {
        throw new IllegalStateException(e);
      }
    }
  }

  @Override
  public void gameStarted() {
    try {
      for (int seat = 1; seat < others.length; seat++) {
        others[seat].begin();
      }
    } catch (IOException e) {
      throw new UncheckedIOException(e);
    }
    check(agent.getGameTime() < 10000 && agent.getGameTimeLeft() > 530000 && agent.isGameActive(),
        "time at the start");
    testRefusals();
    testRounding();
    testFlights();
    testHotels();
    testTickets();
    throw new IllegalArgumentException("thrown on purpose: a callback may throw");
  }

  private void testRefusals() {
    check(bid(16, 1, 0.5f).isRejected(), "a buying price below 1 alone");
    check(bid(16, 1, Float.NaN).isRejected(), "a price that is no number");
    // The hotel that closes last, since on a busy machine the first may have closed by now.
    check(bid(11, -1, 5).getRejectReason() == Bid.SELL_NOT_ALLOWED, "selling in a hotel");
    check(bid(8, 17, 5).isRejected(), "17 units");
    check(bid(16, 1, 50, -1, 50).getRejectReason() == Bid.SELF_CROSS, "buying at one's own price");
  }

  private void testRounding() {
    Bid both = bid(16, 1, 10.9f, -1, 150.1f);
    check(both.getBidString().equals("((1 10) (-1 151))") && agent.getBid(16) == both,
        "rounding: " + both);
    check(bid(17, -1, -3.5f).getBidString().equals("((-1 1))"), "selling below 1");
    check(bid(17, 1, 20000).getBidString().equals("((1 10000))"), "buying above 10000");
    check(bid(17, 1, 0.5f).getProcessingState() == Bid.WITHDRAWN && agent.getBid(17) == null,
        "points that round away withdraw");
  }

  private void testFlights() {
    check(bid(0, 2, 800).getProcessingState() == Bid.TRANSACTED && agent.getOwn(0) == 2
        && agent.getBid(0) == null, "bought at once");
    Bid part = bid(0, 1, 800, 1, 1);
    check(part.isActive() && part.getBidString().equals("((1 1))") && agent.getOwn(0) == 3,
        "bought in part: " + part);
    agent.withdrawBid(part);
    check(part.getProcessingState() == Bid.WITHDRAWN && agent.getBid(0) == null, "withdrawn");
    agent.withdrawBid(part); // bidError hears of it
  }

  private void testHotels() {
    agent.withdrawBid(bid(9, 2, 30.7f)); // bidError hears of it
    check(agent.getBid(9).getBidString().equals("((2 30))"), "a hotel bid stays");
    try {
      agent.submitBid(agent.getBid(9));
      check(false, "a bid is submitted once");
    } catch (IllegalStateException e) {
      check(true, "a bid is submitted once");
    }
    bid(REJECTED_AGAIN, -1, 5);
    others[1].ask("bid " + ROOM + " ((15 40))");
    others[2].ask("bid " + ROOM + " ((2 40))");
    bid(ROOM, 3, 40, 1, 90); // of 16 rooms the others' units at 40 come first, so it wins one
    Thread thread = new Thread(() -> bid(14, 1, 33));
    thread.start();
    try {
      thread.join();
    } catch (InterruptedException e) {
      throw new IllegalStateException(e);
    }
    check(agent.getBid(14) != null, "another thread bids");
  }

  private void testTickets() {
    for (int auction = 18; auction < 28; auction++) {
      ticket = agent.getOwn(auction) == 2 ? auction : ticket;
    }
    Bid sells = bid(ticket, -2, 60);
    others[3].ask("bid " + ticket + " ((1 100))");
    Bid second = new Bid(ticket);
    second.addBidPoint(-2, 55);
    agent.replaceBid(sells, second);
    check(second.getRejectReason() == Bid.ACTIVE_BID_CHANGED && agent.getOwn(ticket) == 1
        && sells.getBidString().equals("((-1 60))"), "replacing a bid that was traded in part");
    others[3].ask("bid " + ticket + " ((1 100))"); // bidUpdated hears of it
  }

  @Override
  protected void bidUpdated(Bid bid) {
    heard.add("updated " + bid.getAuction() + " " + bid.getProcessingState());
  }

  @Override
  protected void bidError(Bid bid, int status) {
    heard.add("error " + bid.getAuction() + " " + status);
  }

  @Override
  protected void bidRejected(Bid bid) {
    if (bid.getAuction() == REJECTED_AGAIN) {
      loops++;
      agent.submitBid(bid);
    }
  }

  @Override
  protected void quoteUpdated(Quote quote) {
    if (quote.getAuction() != ROOM || quote.isAuctionClosed()) {
      return;
    }
    Bid standing = agent.getBid(ROOM);
    if (!quote.hasHQW(standing)) {
      return; // on a busy machine the bids may have missed the publication
    }
    if (quote.getAskPrice() == 40 && !tried) {
      tried = true;
      check(quote.getHQW() == 1 && agent.getProbableOwn(ROOM) == 1,
          "winning units beside a tie: " + quote);
      check(bid(ROOM, 4, 40).getRejectReason() == Bid.PRICE_NOT_BEAT
          && agent.getBid(ROOM) == standing, "a bid below the quote leaves the earlier one");
      bid(ROOM, 4, 120);
      check(!agent.getQuote(ROOM).hasHQW(agent.getBid(ROOM)), "a new bid is not counted yet");
    } else if (tried) {
      check(quote.getHQW() == 4, "winning units at the next publication: " + quote);
    }
  }

  @Override
  protected void auctionClosed(int auction) {
    if (auction == ROOM) {
      check(!tried || agent.getOwn(ROOM) == 4, "rooms are there when the closing is told");
    }
  }

  @Override
  protected void gameStopped() {
    check(agent.getGameTime() == 540000 && !agent.isGameActive(), "time at the end");
    check(tried, "the winning units of a bid in a hotel were counted");
    check(agent.getOwn(ticket) == 0 && heard.contains("updated " + ticket + " " + Bid.TRANSACTED),
        "a standing bid's trade was noticed");
    check(heard.contains("error 16 " + TACAgent.BAD_BIDSTRING_FORMAT)
        && heard.contains("error 0 " + TACAgent.BID_NOT_FOUND)
        && heard.contains("error 9 " + TACAgent.CANNOT_WITHDRAW_BID), "errors are told");
    check(heard.contains("error " + REJECTED_AGAIN + " " + TACAgent.AUCTION_CLOSED)
        && loops < 1000, "bidding again in bidRejected: " + loops + " bids");
    System.out.println(tests + " tests, " + faults + " faults");
  }
}
