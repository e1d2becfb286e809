import se.sics.tac.aw.AgentImpl;
import se.sics.tac.aw.Bid;
import se.sics.tac.aw.Quote;
import se.sics.tac.aw.TACAgent;
import se.sics.tac.util.ArgEnumerator;

/**
 * Gives each client the trip that seems best at guessed room prices, buys its goods, and trades
 * tickets at prices that move over the game.
 */
public class TripAgent extends AgentImpl {
  private static final int[] ROOM = {60, 120, 120, 60}; // dollars, guessed, in the cheap hotel
  private static final int BETTER = 60; // more in the good one
  private static final float SEAT = 600; // the most dollars for a seat
  private static final float FIRST_BID = 75; // dollars for a room
  private static final int RAISE = 50; // dollars above the quote
  private static final int LIKED = 80; // dollars that a ticket is worth if it is wanted at all

  private final float[] offered = new float[TACAgent.getAuctionNo()]; // the last bids' dollars
  private float cap; // the most dollars for a room

  @Override
  protected void init(ArgEnumerator args) {
    cap = args.getArgumentAsInt("cap", "the most dollars for a room", 350);
  }

  @Override
  public void gameStarted() {
    agent.clearAllocation();
    for (int client = 0; client < 8; client++) {
      plan(client);
    }
    for (int auction = 0; auction < TACAgent.getAuctionNo(); auction++) {
      int category = TACAgent.getAuctionCategory(auction);
      if (category != TACAgent.CAT_ENTERTAINMENT) {
        float price = category == TACAgent.CAT_FLIGHT ? SEAT : FIRST_BID;
        bid(auction, agent.getAllocation(auction), price);
      }
    }
  }

  /** Adds a client's trip to the allocation: the one of the greatest worth less guessed cost. */
  private void plan(int client) {
    float most = Float.NEGATIVE_INFINITY;
    int arrive = 0;
    int depart = 0;
    int hotel = 0;
    for (int first = 1; first <= 4; first++) {
      for (int last = first + 1; last <= 5; last++) {
        for (int type = TACAgent.TYPE_CHEAP_HOTEL; type <= TACAgent.TYPE_GOOD_HOTEL; type++) {
          float gain = gain(client, first, last, type);
          if (gain > most) {
            most = gain;
            arrive = first;
            depart = last;
            hotel = type;
          }
        }
      }
    }
    want(seat(TACAgent.TYPE_INFLIGHT, arrive));
    want(seat(TACAgent.TYPE_OUTFLIGHT, depart));
    for (int night = arrive; night < depart; night++) {
      want(TACAgent.getAuctionFor(TACAgent.CAT_HOTEL, hotel, night));
      int type = TACAgent.TYPE_ALLIGATOR_WRESTLING + night - arrive; // another type each night
      if (type <= TACAgent.TYPE_MUSEUM
          && agent.getClientPreference(client, TACAgent.E1 + night - arrive) > LIKED) {
        want(TACAgent.getAuctionFor(TACAgent.CAT_ENTERTAINMENT, type, night));
      }
    }
  }

  /** What a trip without tickets is worth to a client, less its guessed cost. */
  private float gain(int client, int first, int last, int hotel) {
    int early = Math.abs(first - agent.getClientPreference(client, TACAgent.ARRIVAL));
    int late = Math.abs(last - agent.getClientPreference(client, TACAgent.DEPARTURE));
    float gain = 1000 - 100 * (early + late)
        - agent.getQuote(seat(TACAgent.TYPE_INFLIGHT, first)).getAskPrice()
        - agent.getQuote(seat(TACAgent.TYPE_OUTFLIGHT, last)).getAskPrice();
    boolean good = hotel == TACAgent.TYPE_GOOD_HOTEL;
    if (good) {
      gain += agent.getClientPreference(client, TACAgent.HOTEL_VALUE);
    }
    for (int night = first; night < last; night++) {
      gain -= ROOM[night - 1] + (good ? BETTER : 0);
    }
    return gain;
  }

  private static int seat(int type, int day) {
    return TACAgent.getAuctionFor(TACAgent.CAT_FLIGHT, type, day);
  }

  private void want(int auction) {
    agent.setAllocation(auction, agent.getAllocation(auction) + 1);
  }

  private void bid(int auction, int units, float price) {
    if (units != 0) {
      Bid bid = new Bid(auction);
      bid.addBidPoint(units, price);
      offered[auction] = price;
      agent.submitBid(bid);
    }
  }

  @Override
  public void quoteUpdated(Quote quote) {
    int auction = quote.getAuction();
    int want = agent.getAllocation(auction);
    if (TACAgent.getAuctionCategory(auction) == TACAgent.CAT_HOTEL) {
      boolean loses = quote.hasHQW(agent.getBid(auction)) && quote.getHQW() < want;
      if (loses && offered[auction] < cap) {
        bid(auction, want, Math.min(cap, quote.getAskPrice() + RAISE));
      }
    } else if (TACAgent.getAuctionCategory(auction) == TACAgent.CAT_ENTERTAINMENT) {
      int lack = want - agent.getOwn(auction);
      float part = (float) agent.getGameTime() / agent.getGameLength();
      bid(auction, lack, lack > 0 ? 20 + 70 * part : 180 - 130 * part);
    }
  }

  @Override
  public void gameStopped() {
    int wanted = 0;
    int got = 0;
    for (int auction = 0; auction < TACAgent.getAuctionNo(); auction++) {
      wanted += agent.getAllocation(auction);
      got += Math.min(agent.getOwn(auction), agent.getAllocation(auction));
    }
    System.out.println(agent.getAgent() + " got " + got + " of " + wanted + " units");
  }

  public static void main(String[] args) {
    TACAgent.main(args);
  }
}
