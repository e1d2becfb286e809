import java.io.ByteArrayOutputStream;
import java.io.IOException;
import java.io.InputStream;
import java.net.ConnectException;
import java.net.InetSocketAddress;
import java.net.Socket;
import java.net.SocketOption;
import java.net.SocketTimeoutException;
import java.nio.charset.StandardCharsets;
import java.util.ArrayList;
import java.util.List;
import java.util.Map;
import java.util.TreeMap;

/**
 * An agent to start from, in a single file: it needs Java 11 or later, and nothing else.
 *
 * <p>java Starter.java [HOST PORT WORD] [--pause SECONDS] [--again]
 *
 * <p>It buys each client's preferred trip: the flights at once, and the rooms 50 dollars above the
 * quote, again when the quote has reached its bid. Change `play`.
 *
 * <p>If its link is lost, it tries to reconnect for up to 150 seconds, and then `play` begins anew:
 * so `play` has to begin with `own`, or it buys everything twice.
 */
public final class Starter {
  static final String HOST = "localhost"; // the machine of the game
  static final int PORT = 7000;
  static final String WORD = "seat0"; // your seat word, which is a password
  static final boolean AGAIN = false; // whether it asks for a seat in the next game too

  static final int MOST_FOR_A_SEAT = 600; // dollars
  static final int MOST_FOR_A_ROOM = 300; // dollars

  /** Shoreline Shanties, nights 1 to 4, and then Tampa Towers. */
  static boolean isHotel(int good) {
    return good >= 8 && good < 16;
  }

  /** How many units of each good the clients' preferred trips need. */
  static TreeMap<Integer, Integer> plan(int[][] clients) {
    TreeMap<Integer, Integer> needs = new TreeMap<>();
    for (int[] client : clients) {
      int arrive = client[0];
      int depart = client[1];
      int first = client[2] > 100 ? 12 : 8; // night 1 of the hotel that the premium pays for
      needs.merge(arrive - 1, 1, Integer::sum); // flights in are 0 to 3, and flights out 4 to 7
      needs.merge(depart + 2, 1, Integer::sum);
      for (int night = arrive; night < depart; night++) {
        needs.merge(first + night - 1, 1, Integer::sum);
      }
    }
    return needs;
  }

  /** Plays a game to its end. */
  static void play(Link link, double pause) throws IOException, InterruptedException {
    TreeMap<Integer, Integer> needs = plan(link.clients);
    TreeMap<Integer, Integer> standing = new TreeMap<>();
    for (Map.Entry<Integer, Integer> need : needs.entrySet()) {
      int good = need.getKey();
      Own own = link.own(good);
      if (isHotel(good)) {
        standing.put(good, own.points.stream().mapToInt(point -> point[1]).min().orElse(0));
      } else if (need.getValue() > own.held) {
        link.bid(good, need.getValue() - own.held, MOST_FOR_A_SEAT);
      }
    }
    while (!link.quote(0).isClosed) {
      for (int good : standing.keySet()) {
        Quote quote = link.quote(good);
        int before = standing.get(good);
        int price = Math.min(quote.ask + 50, MOST_FOR_A_ROOM);
        if (!quote.isClosed && before <= quote.ask && before < price) {
          link.bid(good, needs.get(good), price); // it replaces the earlier bid there
          standing.put(good, price);
        }
      }
      Thread.sleep(Math.round(1000 * pause));
    }
    StringBuilder held = new StringBuilder();
    for (int good : needs.keySet()) {
      held.append(' ').append(good).append(':').append(link.own(good).held);
    }
    System.out.println("agent " + link.agent + " holds" + held + ", cash " + link.cash());
  }

  // From here on: the link, one reply line for each request line. All of it may stay as it is.

  static final double LIMIT = limit(); // seconds that a reply may take; 0 for any time
  static final double BACK = 150; // seconds for which a lost link is connected again
  static final double PATIENCE = 120; // seconds for which a server that does not listen is tried
  static final double TRY = 15; // seconds that one try to connect again may take
  static final long BETWEEN = 500; // milliseconds between two tries
  static final Map<String, Integer> KEEPALIVE =
      Map.of("TCP_KEEPIDLE", 5, "TCP_KEEPINTERVAL", 3, "TCP_KEEPCOUNT", 3); // where they are known

  static double limit() {
    return Double.parseDouble(System.getenv().getOrDefault("AGENT_LIMIT", "10"));
  }

  /** The link ended, or a reply took too long. */
  static final class Lost extends IOException {
    Lost(String what) {
      super(what);
    }
  }

  /** The seat is not to be had any more in this game. */
  static final class Over extends IOException {
    Over(String what) {
      super(what);
    }
  }

  /** There is no server, or it does not know the word. */
  static final class Hopeless extends IOException {
    Hopeless(String what) {
      super(what);
    }
  }

  /** The units that the agent has of a good, and what stands there: each units and a price. */
  static final class Own {
    final int held;
    final List<int[]> points = new ArrayList<>();

    Own(String reply) {
      String[] words = reply.replaceAll("[()]", "").split(" ");
      held = Integer.parseInt(words[2]);
      for (int place = 3; place + 1 < words.length; place += 2) {
        points.add(new int[] {Integer.parseInt(words[place]), Integer.parseInt(words[place + 1])});
      }
    }
  }

  /** The price of a good, and whether its auction is closed. */
  static final class Quote {
    final int ask;
    final boolean isClosed;

    Quote(String reply) {
      String[] words = reply.split(" ");
      ask = Integer.parseInt(words[3]);
      isClosed = words[4].equals("closed");
    }
  }

  /** A link that has its seat, in a game that has begun. */
  static final class Link {
    /** The agent's number, 0 to 7. */
    final int agent;

    /**
     * For each of its eight clients the days of arrival and of departure, the premium for Tampa
     * Towers, and the values of the three tickets.
     */
    final int[][] clients = new int[8][];

    private final String word;
    private final Socket socket = new Socket();
    private final InputStream from;

    Link(String host, int port, String word, double within) throws IOException {
      this.word = word;
      try {
        socket.connect(new InetSocketAddress(host, port), milliseconds(TRY));
        socket.setTcpNoDelay(true);
        socket.setKeepAlive(true);
        for (SocketOption<?> option : socket.supportedOptions()) {
          if (KEEPALIVE.containsKey(option.name())) {
            @SuppressWarnings("unchecked")
            SocketOption<Integer> known = (SocketOption<Integer>) option;
            socket.setOption(known, KEEPALIVE.get(option.name()));
          }
        }
        from = socket.getInputStream();
        String first = ask("hello " + word, within);
        if (first.equals("refused taken")) {
          throw new Lost(word + ": " + first);
        }
        if (!first.startsWith("welcome ")) {
          throw new Hopeless(word + ": " + first);
        }
        agent = Integer.parseInt(first.split(" ")[1]);
        line(TRY); // the tickets that it has at first
        for (int client = 0; client < clients.length; client++) {
          String[] words = line(TRY).split(" ");
          clients[client] = new int[words.length - 3];
          for (int place = 3; place < words.length; place++) {
            clients[client][place - 3] = Integer.parseInt(words[place]);
          }
        }
      } catch (IOException | RuntimeException fault) {
        socket.close();
        throw fault;
      }
    }

    /** Sends a request line, and gives its reply line, which may take so many seconds. */
    String ask(String line, double within) throws IOException {
      try {
        socket.getOutputStream().write((line + "\n").getBytes(StandardCharsets.US_ASCII));
      } catch (IOException fault) {
        // then no reply comes either
      }
      return line(within);
    }

    private String line(double within) throws IOException {
      long deadline = System.nanoTime() + Math.round(within * 1e9);
      ByteArrayOutputStream line = new ByteArrayOutputStream();
      while (true) {
        int read;
        try {
          int left = (int) ((deadline - System.nanoTime()) / 1_000_000);
          socket.setSoTimeout(within == 0 ? 0 : Math.max(1, left));
          read = from.read();
        } catch (SocketTimeoutException fault) {
          throw new Lost(word + ": no reply within " + text(within) + " seconds");
        } catch (IOException fault) {
          read = -1;
        }
        if (read < 0) {
          throw new Lost(word + ": the link was closed");
        }
        if (read == '\n') {
          return line.toString(StandardCharsets.US_ASCII);
        }
        line.write(read);
      }
    }

    /**
     * Bids for units at a price or less each, below 0 to sell; it replaces the whole earlier bid
     * there. Gives the reply line.
     */
    String bid(int good, int units, int price) throws IOException {
      return ask("bid " + good + " ((" + units + " " + price + "))", LIMIT);
    }

    Own own(int good) throws IOException {
      return new Own(ask("own " + good, LIMIT));
    }

    Quote quote(int good) throws IOException {
      return new Quote(ask("quote " + good, LIMIT));
    }

    /** What the agent earned so far less what it paid, in dollars. */
    int cash() throws IOException {
      return Integer.parseInt(ask("cash", LIMIT).split(" ")[2]);
    }

    /** Leaves the game. */
    void quit() throws IOException {
      ask("quit", LIMIT);
      close();
    }

    void close() throws IOException {
      socket.close();
    }
  }

  private static int milliseconds(double seconds) {
    return (int) Math.round(1000 * seconds);
  }

  private static String text(double seconds) {
    return seconds == Math.rint(seconds) ? String.valueOf((long) seconds) : String.valueOf(seconds);
  }

  /** Takes the seat, and waits until the game begins; after a lost link, until it is back. */
  static Link seat(String host, int port, String word, Lost lost)
      throws IOException, InterruptedException {
    long deadline = System.nanoTime() + Math.round((lost == null ? PATIENCE : BACK) * 1e9);
    String told = "";
    while (true) {
      IOException fault;
      long begun = System.nanoTime();
      try {
        return new Link(host, port, word, lost == null ? 0 : TRY);
      } catch (Hopeless hopeless) {
        throw hopeless;
      } catch (Lost again) {
        fault = new Over(again.getMessage());
      } catch (IOException again) {
        String what = "cannot connect to " + host + " at port " + port + ": " + again.getMessage();
        fault = lost == null ? new Hopeless(what) : new Over(what);
        if (lost != null && again instanceof ConnectException) {
          throw new Over(lost.getMessage()); // the game has ended
        }
      }
      if (lost == null && System.nanoTime() - begun > TRY * 1e9) {
        deadline = System.nanoTime() + Math.round(PATIENCE * 1e9); // it had waited for its game
      }
      if (System.nanoTime() > deadline) {
        throw fault;
      }
      if (lost == null && !fault.getMessage().equals(told)) {
        told = fault.getMessage();
        System.err.println(told + "; trying for " + text(PATIENCE) + " seconds");
      }
      Thread.sleep(BETWEEN);
    }
  }

  /** Plays a game, however often its link is lost. */
  static void game(String host, int port, String word, double pause)
      throws IOException, InterruptedException {
    Lost lost = null;
    long begun = 0;
    while (true) {
      Link link = seat(host, port, word, lost);
      if (lost != null) {
        System.err.printf("%s; reconnected after %.1f seconds%n", lost.getMessage(),
            (System.nanoTime() - begun) / 1e9);
      }
      try {
        play(link, pause);
        link.quit();
        return;
      } catch (Lost fault) {
        lost = fault;
        begun = System.nanoTime();
        link.close();
      }
    }
  }

  /** Plays a game, or one after the other. */
  public static void main(String[] words) throws InterruptedException {
    List<String> where = new ArrayList<>();
    double pause = 2;
    boolean again = AGAIN;
    for (int place = 0; place < words.length; place++) {
      if (words[place].equals("--again")) {
        again = true;
      } else if (words[place].equals("--pause") && place + 1 < words.length) {
        pause = Double.parseDouble(words[++place]);
      } else {
        where.add(words[place]);
      }
    }
    if (where.isEmpty()) {
      where = List.of(HOST, String.valueOf(PORT), WORD);
    }
    if (where.size() != 3 || !where.get(1).matches("[0-9]{1,5}")) {
      System.err.println("usage: java Starter.java [HOST PORT WORD] [--pause SECONDS] [--again]");
      System.exit(2);
    }
    do {
      try {
        game(where.get(0), Integer.parseInt(where.get(1)), where.get(2), pause);
      } catch (IOException | IllegalArgumentException fault) { // the latter of a port out of range
        if (!again || !(fault instanceof Over)) {
          System.err.println(fault.getMessage());
          System.exit(1);
        }
      }
      if (again) {
        Thread.sleep(1000);
      }
    } while (again);
  }
}
