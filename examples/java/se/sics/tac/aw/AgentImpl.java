package se.sics.tac.aw;

import se.sics.tac.util.ArgEnumerator;

/**
 * What an agent extends. Callbacks come on one thread, one after another. They are protected and
 * have bodies, so an agent may override each as protected or as public, or not at all.
 */
public abstract class AgentImpl {
  protected TACAgent agent;

  /** Comes once, before the link is opened: the agent knows no game yet. */
  protected void init(ArgEnumerator args) {}

  /** The clients, the tickets and all 28 quotes are known. */
  protected void gameStarted() {}

  /** All auctions have closed. */
  protected void gameStopped() {}

  protected void quoteUpdated(Quote quote) {}

  /** Comes after the quotes of one category, such as TACAgent.CAT_FLIGHT. */
  protected void quoteUpdated(int auctionCategory) {}

  /** A bid was admitted, traded in part or whole, withdrawn, or ended by its auction's closing. */
  protected void bidUpdated(Bid bid) {}

  /** The auction's rules refuse the bid; its reason says why. */
  protected void bidRejected(Bid bid) {}

  /** The bid could not be asked for, or could not be withdrawn. */
  protected void bidError(Bid bid, int status) {}

  /** The holding of the good is final, and known. */
  protected void auctionClosed(int auction) {}
}
