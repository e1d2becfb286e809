package se.sics.tac.aw;

/** The numbers of the 28 auctions, which are those of the server's goods. Agents use TACAgent. */
class Auctions {
  public static final int CAT_FLIGHT = 0;
  public static final int CAT_HOTEL = 1;
  public static final int CAT_ENTERTAINMENT = 2;

  public static final int TYPE_OUTFLIGHT = 0;
  public static final int TYPE_INFLIGHT = 1;
  public static final int TYPE_CHEAP_HOTEL = 0;
  public static final int TYPE_GOOD_HOTEL = 1;
  public static final int TYPE_ALLIGATOR_WRESTLING = 1;
  public static final int TYPE_AMUSEMENT = 2;
  public static final int TYPE_MUSEUM = 3;

  static final int AUCTIONS = 28;
  static final int HOTELS = 8; // the first of them; flights come before
  static final int TICKETS = 16; // the first of them

  private static final String[] CATEGORIES = {"flight", "hotel", "entertainment"};
  private static final String[] TYPES = {"inflight", "outflight", "cheap hotel", "good hotel",
      "alligator wrestling", "amusement park", "museum"};

  public static int getAuctionNo() {
    return AUCTIONS;
  }

  /** Days are 1 to 4, and 2 to 5 for outbound flights. */
  public static int getAuctionFor(int category, int type, int day) {
    int late = category == CAT_FLIGHT && type == TYPE_OUTFLIGHT ? 1 : 0;
    if (day < 1 + late || day > 4 + late) {
      throw new IllegalArgumentException(
          "no day " + day + " of category " + category + ", type " + type);
    }
    switch (category) {
      case CAT_FLIGHT:
        return late == 1 ? day + 2 : day - 1;
      case CAT_HOTEL:
        return HOTELS + 4 * type + day - 1;
      case CAT_ENTERTAINMENT:
        return TICKETS + 4 * (type - TYPE_ALLIGATOR_WRESTLING) + day - 1;
      default:
        throw new IllegalArgumentException("no category " + category);
    }
  }

  public static int getAuctionCategory(int auction) {
    return auction < HOTELS ? CAT_FLIGHT : auction < TICKETS ? CAT_HOTEL : CAT_ENTERTAINMENT;
  }

  public static int getAuctionType(int auction) {
    switch (getAuctionCategory(auction)) {
      case CAT_FLIGHT:
        return auction < 4 ? TYPE_INFLIGHT : TYPE_OUTFLIGHT;
      case CAT_HOTEL:
        return auction < 12 ? TYPE_CHEAP_HOTEL : TYPE_GOOD_HOTEL;
      default:
        return (auction - TICKETS) / 4 + TYPE_ALLIGATOR_WRESTLING;
    }
  }

  public static int getAuctionDay(int auction) {
    return auction % 4 + (auction / 4 == 1 ? 2 : 1);
  }

  public static String auctionCategoryToString(int category) {
    boolean known = category >= 0 && category < CATEGORIES.length;
    return known ? CATEGORIES[category] : "category " + category;
  }

  public static String getAuctionTypeAsString(int auction) {
    return TYPES[auction / 4];
  }
}
