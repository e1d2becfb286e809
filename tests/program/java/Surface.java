import java.util.logging.Logger;
import se.sics.tac.aw.AgentImpl;
import se.sics.tac.aw.Bid;
import se.sics.tac.aw.Quote;
import se.sics.tac.aw.TACAgent;
import se.sics.tac.util.ArgEnumerator;

/** Only compiled: each sure or likely name of the layer, in the types that agents use. */
public class Surface extends AgentImpl {
  private static final Logger LOG = Logger.getLogger(Surface.class.getName());
  private float[] prices;

  protected void init(ArgEnumerator args) {
    prices = new float[agent.getAuctionNo()];
  }

  public void quoteUpdated(Quote quote) {
    int auction = quote.getAuction();
    int category = agent.getAuctionCategory(auction);
    int type = agent.getAuctionType(auction);
    int day = agent.getAuctionDay(auction);
    float ask = quote.getAskPrice();
    float bid = quote.getBidPrice();
    int hqw = quote.getHQW();
    int status = quote.getAuctionStatus();
    boolean mine = quote.hasHQW(agent.getBid(auction));
    boolean gone = quote.isAuctionClosed();
    boolean same = status == Quote.AUCTION_CLOSED || gone;
    prices[auction] = ask + bid + hqw + category + type + day + (mine && same ? 1 : 0);
  }

  public void quoteUpdated(int auctionCategory) {
    LOG.fine("all quotes of " + agent.auctionCategoryToString(auctionCategory));
  }

  public void bidUpdated(Bid bid) {
    LOG.fine(bid.getID() + " " + bid.getAuction() + " " + bid.getProcessingStateAsString()
        + bid.getProcessingState() + bid.getBidHash());
  }

  public void bidRejected(Bid bid) {
    LOG.warning(bid.getID() + " " + bid.getRejectReason() + bid.getRejectReasonAsString());
  }

  public void bidError(Bid bid, int status) {
    LOG.warning(bid.getAuction() + " " + status + agent.commandStatusToString(status)
        + (status == TACAgent.NO_ERROR));
  }

  public void gameStarted() {
    super.gameStarted();
    int[] types = {TACAgent.TYPE_INFLIGHT, TACAgent.TYPE_OUTFLIGHT, TACAgent.TYPE_GOOD_HOTEL,
        TACAgent.TYPE_CHEAP_HOTEL, TACAgent.TYPE_ALLIGATOR_WRESTLING, TACAgent.TYPE_AMUSEMENT,
        TACAgent.TYPE_MUSEUM};
    int[] wants = {TACAgent.ARRIVAL, TACAgent.DEPARTURE, TACAgent.HOTEL_VALUE, TACAgent.E1,
        TACAgent.E2, TACAgent.E3};
    int day = agent.getClientPreference(0, wants[0]);
    int auction = TACAgent.getAuctionFor(TACAgent.CAT_FLIGHT, types[0], day);
    auction = agent.getAuctionFor(TACAgent.CAT_HOTEL, types[3], 1);
    auction = agent.getAuctionFor(TACAgent.CAT_ENTERTAINMENT, types[4], 1);
    agent.clearAllocation();
    agent.setAllocation(auction, agent.getAllocation(auction) + 1);
    Bid bid = new Bid(auction);
    bid.addBidPoint(1, 200);
    bid.addBidPoint(-1, 200.5f);
    agent.submitBid(bid);
    Bid other = new Bid(auction);
    int lack = agent.getAllocation(auction) - agent.getOwn(auction);
    other.addBidPoint(lack + agent.getProbableOwn(auction), 50f);
    agent.replaceBid(bid, other);
    Quote quote = agent.getQuote(auction);
    int game = agent.getGameID();
    long time = agent.getGameTime();
    long left = agent.getGameTimeLeft();
    long length = agent.getGameLength();
    float late = 200f - (agent.getGameTime() * 120f) / agent.getGameLength();
    LOG.fine(agent.getAuctionTypeAsString(auction) + quote + game + time + left + length + late
        + bid.getBidString() + bid.getQuantity());
  }

  public void gameStopped() {}

  public void auctionClosed(int auction) {}

  public static void main(String[] args) {
    TACAgent.main(args);
  }
}
