package se.sics.tac.aw;

/**
 * The time of the game, in milliseconds of a game of nine minutes, 10000 a tick, whatever the
 * host's pace is. No line says the tick or the pace. They show in the auctions: a flight's price
 * changes only at ticks, so one that changed k times has seen k ticks; the n-th hotel closes at
 * tick 6n.
 */
final class GameClock {
  static final int TICKS = 54;
  static final int TICKS_OF_A_CLOSING = 6;
  private static final int CLOSINGS = 8;
  private static final int TICK = 10000; // ms of game time
  static final int LENGTH = TICKS * TICK;

  private final long start = System.nanoTime();
  private final boolean given;
  private double pace; // ms from tick to tick
  private boolean known;
  private int ticks; // at least so many are over
  private long last; // game time that was told
  private boolean over;

  /** A clock of a pace in milliseconds; 0 if it is not known. */
  GameClock(int pace) {
    given = pace > 0;
    known = given;
    this.pace = given ? pace : TICK;
  }

  /** Milliseconds of the machine's clock since the game began. */
  double elapsed() {
    return (System.nanoTime() - start) / 1e6;
  }

  /** At least so many ticks are over. */
  synchronized void sawTick(int count) {
    if (count <= ticks || count > TICKS) {
      return;
    }
    ticks = count;
    if (!given) {
      // A tick that is seen late makes the quotient too great: later ones only lower the pace. The
      // first ones also correct what the ten lines' delay made too small.
      double mean = elapsed() / count;
      pace = count <= TICKS_OF_A_CLOSING ? mean : Math.min(pace, mean);
      known = true;
    }
  }

  synchronized void stop() {
    over = true;
  }

  synchronized boolean knowsPace() {
    return known;
  }

  synchronized double pace() {
    return pace;
  }

  /** Never falls, never is behind a tick that was seen, and waits at the next closing for it. */
  synchronized long time() {
    int closings = Math.min(CLOSINGS, ticks / TICKS_OF_A_CLOSING);
    int next = Math.min(TICKS, (closings + 1) * TICKS_OF_A_CLOSING);
    long now = over ? LENGTH : (long) Math.min(elapsed() * TICK / pace, (double) next * TICK);
    last = Math.max(last, Math.max((long) ticks * TICK, now));
    return last;
  }
}
