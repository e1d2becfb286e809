package se.sics.tac.aw;

import java.io.IOException;
import java.io.UncheckedIOException;
import java.util.Arrays;

/** Plays a game: looks at the auctions in rounds, and makes all callbacks, on one thread. */
final class GameLoop {
  private static final int ROUNDS = 3; // in a tick
  private static final int BEATS = 6; // in a round; callbacks about bids come once in each
  private static final double SHORTEST = 25; // ms from round to round until the pace is known
  private static final double LONGEST = 20_000; // ms, a third of the slowest pace's tick
  private static final int AMID_UPDATES = 2; // ms in which the clock ends a tick's updates
  private static final int AMID_PUBLICATIONS = 5; // ms

  private final AgentImpl impl;
  private final TACAgent agent;
  private final Link link;
  private final GameClock clock;
  private final boolean asks; // for winning units at each publication
  private final boolean[] due = new boolean[Auctions.AUCTIONS]; // quotes to tell
  private final boolean[] told = new boolean[Auctions.AUCTIONS]; // closings
  private final int[] moves = new int[Auctions.HOTELS]; // ticks that each flight's price shows
  private int closings; // of hotels
  private int roundsSinceClosing = ROUNDS + 1;
  private int openAt; // the request line after which no new closing of a hotel was seen
  private int published; // that of `openAt` before the last closing
  private boolean live; // quotes, not only published by the clock
  private double lastBeat;

  GameLoop(AgentImpl impl, Link link, GameClock clock, boolean asks) {
    this.impl = impl;
    this.agent = impl.agent;
    this.link = link;
    this.clock = clock;
    this.asks = asks;
  }

  void play() throws IOException, InterruptedException {
    call(impl::gameStarted);
    Arrays.fill(due, true);
    tell();
    double next = 0;
    while (!agent.getQuote(0).isAuctionClosed()) {
      Thread.sleep(Math.max(1, (long) (untilNextRound() / BEATS)));
      agent.takeCallbacks().forEach(this::call);
      if (clock.elapsed() >= next) {
        round();
        next = clock.elapsed() + untilNextRound();
      }
    }
    finish();
  }

  private double untilNextRound() {
    if (link.sent() > Link.MOST_LINES / 8 * 7) {
      return LONGEST; // few lines are left
    }
    // Until the first tick was seen rounds come ever more slowly, so that it is seen soon at any
    // pace and costs few lines.
    return clock.knowsPace() ? clock.pace() / ROUNDS
        : Math.max(SHORTEST, Math.min(LONGEST, clock.elapsed() / 8));
  }

  private void round() throws InterruptedException {
    boolean ticked = look(0, Auctions.HOTELS);
    if (ticked) {
      Thread.sleep(AMID_UPDATES);
      look(0, Auctions.HOTELS);
    }
    int before = closings;
    if (lookAtHotels() && closings == before) {
      // A price was published. If the clock did it, a closing came before: it is seen now, or was
      // seen less than a tick ago, if the machine is busy.
      lookAtHotels();
      live |= closings == before && roundsSinceClosing > ROUNDS;
    }
    roundsSinceClosing++;
    if (closings > before) {
      roundsSinceClosing = 0;
      published = openAt;
      Thread.sleep(AMID_PUBLICATIONS);
      look(0, Auctions.HOTELS);
      lookAtHotels();
      Arrays.setAll(moves, flight ->
          Math.max(moves[flight], GameClock.TICKS_OF_A_CLOSING * closings));
    }
    clock.sawTick(Arrays.stream(moves).max().getAsInt());
    look(Auctions.TICKETS, Auctions.AUCTIONS);
    countAndMark(ticked, closings > before);
    tell();
  }

  /** Looks at those of some auctions that are open. Returns whether one has changed. */
  private boolean look(int from, int to) {
    boolean any = false;
    for (int auction = from; auction < to; auction++) {
      Quote before = agent.getQuote(auction);
      if (!before.isAuctionClosed()) {
        Quote quote = agent.look(auction);
        boolean changed = quote.differs(before);
        if (changed && auction < Auctions.HOTELS && !quote.isAuctionClosed()) {
          moves[auction]++;
        }
        due[auction] |= changed;
        any |= changed;
      }
    }
    return any;
  }

  private boolean lookAtHotels() {
    int begin = link.sent();
    boolean any = look(Auctions.HOTELS, Auctions.TICKETS);
    int closed = 0;
    for (int hotel = Auctions.HOTELS; hotel < Auctions.TICKETS; hotel++) {
      closed += agent.getQuote(hotel).isAuctionClosed() ? 1 : 0;
    }
    if (closed == closings) {
      openAt = begin;
    }
    closings = closed;
    return any;
  }

  /** Reads what has been traded, counts winning units, and marks the quotes that are to be told. */
  private void countAndMark(boolean ticked, boolean closing) {
    boolean beat = ticked || clock.elapsed() > lastBeat + 1.5 * clock.pace();
    lastBeat = beat ? clock.elapsed() : lastBeat;
    for (int auction = 0; auction < Auctions.AUCTIONS; auction++) {
      Quote quote = agent.getQuote(auction);
      if (quote.isAuctionClosed()) {
        continue;
      }
      if (Auctions.getAuctionCategory(auction) != Auctions.CAT_HOTEL) {
        agent.readOwnIfOthersCalled(auction);
        due[auction] |= beat;
      } else {
        Bid bid = agent.getBid(auction);
        if (closing || due[auction] || live && bid != null && !quote.hasHQW(bid)) {
          agent.countWinning(auction, live, published, asks);
          due[auction] = true;
        }
      }
    }
  }

  /** Makes the callbacks about closings, bids and quotes. */
  private void tell() {
    for (int auction = 0; auction < Auctions.AUCTIONS; auction++) {
      if (agent.getQuote(auction).isAuctionClosed() && !told[auction]) {
        told[auction] = true;
        due[auction] = false;
        agent.readOwn(auction);
        agent.takeCallbacks().forEach(this::call);
        int number = auction;
        if (Auctions.getAuctionCategory(auction) == Auctions.CAT_HOTEL) {
          call(() -> impl.quoteUpdated(agent.getQuote(number))); // the price that was paid
        }
        call(() -> impl.auctionClosed(number));
      }
    }
    agent.takeCallbacks().forEach(this::call);
    boolean[] categories = new boolean[3];
    for (int auction = 0; auction < Auctions.AUCTIONS; auction++) {
      int number = auction;
      int category = Auctions.getAuctionCategory(auction);
      if (due[auction]) {
        due[auction] = false;
        categories[category] = true;
        call(() -> impl.quoteUpdated(agent.getQuote(number)));
      }
      boolean last = auction + 1 == Auctions.AUCTIONS
          || Auctions.getAuctionCategory(auction + 1) != category;
      if (last && categories[category]) {
        call(() -> impl.quoteUpdated(category));
      }
    }
  }

  /** After the last tick: sees the other auctions close, tells it, and leaves. */
  private void finish() throws IOException, InterruptedException {
    for (int tries = 0; tries < 100 && anyOpen(); tries++) {
      Thread.sleep(10);
      look(0, Auctions.AUCTIONS);
    }
    agent.stop();
    tell();
    call(impl::gameStopped);
    StringBuilder held = new StringBuilder();
    for (int auction = 0; auction < Auctions.AUCTIONS; auction++) {
      held.append(' ').append(agent.getOwn(auction));
    }
    System.out.printf("%s holds%s, cash %s, %d lines, pace %.0f ms%n", agent.getAgent(), held,
        agent.cash(), link.sent(), clock.pace());
    link.ask("quit");
    link.close();
  }

  private boolean anyOpen() {
    for (int auction = 0; auction < Auctions.AUCTIONS; auction++) {
      if (!agent.getQuote(auction).isAuctionClosed()) {
        return true;
      }
    }
    return false;
  }

  /** A callback that throws costs the agent that call and nothing else, unless the link failed. */
  private void call(Runnable callback) {
    try {
      callback.run();
    } catch (UncheckedIOException e) {
      throw e;
    } catch (RuntimeException e) {
      e.printStackTrace();
    }
  }
}
