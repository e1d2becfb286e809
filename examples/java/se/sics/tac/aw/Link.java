package se.sics.tac.aw;

import java.io.BufferedInputStream;
import java.io.ByteArrayOutputStream;
import java.io.IOException;
import java.io.InputStream;
import java.io.InterruptedIOException;
import java.io.OutputStream;
import java.io.UncheckedIOException;
import java.net.ConnectException;
import java.net.InetSocketAddress;
import java.net.Socket;
import java.net.SocketOption;
import java.net.SocketTimeoutException;
import java.nio.charset.StandardCharsets;
import java.util.ArrayList;
import java.util.List;
import java.util.Map;

/**
 * A link to the server. Any thread may ask; one request at a time is out. A link that is lost,
 * since it ends or a reply takes too long, is connected again, and the request repeated unless it
 * is a bid, which may have been admitted.
 */
final class Link {
  static final int MOST_LINES = 65536; // of a session
  private static final int WELCOME = 10; // lines
  private static final int PATIENCE = 120_000; // ms, for a server that starts
  private static final int BETWEEN_TRIES = 200; // ms
  private static final int BACK = 150_000; // ms for which a lost link is connected again
  private static final int TRY = 15_000; // ms that one try to do so may take
  private static final int BETWEEN = 500; // ms between two of these
  // Seconds, seconds and probes after which a link without a word has ended, where they are known.
  private static final Map<String, Integer> KEEPALIVE =
      Map.of("TCP_KEEPIDLE", 5, "TCP_KEEPINTERVAL", 3, "TCP_KEEPCOUNT", 3);

  /** The link ended, or a reply did not come in time. */
  private static final class Lost extends IOException {
    private static final long serialVersionUID = 1;

    Lost(String what) {
      super(what);
    }
  }

  /** The link was lost before a bid was answered, and is back: `own` tells what came of it. */
  static final class Unanswered extends RuntimeException {
    private static final long serialVersionUID = 1;

    Unanswered(String request) {
      super("the link was lost before `" + request + "` was answered");
    }
  }

  private final String host;
  private final int port;
  private final int limit = limit(); // ms that a reply may take; 0 for any time
  private Socket socket;
  private InputStream from;
  private OutputStream to;
  private LinkRecord record;
  private String word = "";
  private boolean isSeated; // in a game that has begun
  private int sent; // request lines

  private Link(String host, int port) throws IOException {
    this.host = host;
    this.port = port;
    open();
  }

  /** Connects. While the server refuses, it may still be starting. */
  static Link connect(String host, int port) throws IOException, InterruptedException {
    String place = host + " at port " + port;
    long deadline = System.nanoTime() + PATIENCE * 1_000_000L;
    boolean told = false;
    while (true) {
      try {
        return new Link(host, port);
      } catch (IOException | IllegalArgumentException e) { // the latter of a port out of range
        if (!(e instanceof ConnectException) || System.nanoTime() > deadline) {
          throw new IOException("cannot connect to " + place + ": " + e.getMessage());
        }
        if (!told) {
          System.err.println("agent: nobody listens on " + place + " yet; trying for two minutes");
          told = true;
        }
        Thread.sleep(BETWEEN_TRIES);
      }
    }
  }

  /**
   * Takes the seat of a word, and returns the ten lines of the welcome. They may take long: the
   * game begins when all are there.
   */
  synchronized List<String> greet(String seatWord) throws IOException {
    word = seatWord;
    List<String> lines;
    try {
      lines = welcome(0);
    } catch (Lost lost) {
      lines = recover(lost);
    }
    if (lines.size() < WELCOME) {
      throw new IOException(word + ": " + lines.get(0));
    }
    return lines;
  }

  /** Sends a request line, and returns its reply line. */
  synchronized String ask(String request) {
    long deadline = System.nanoTime() + BACK * 1_000_000L;
    while (true) {
      try {
        send(request);
        sent++;
        String reply = line();
        if (reply.startsWith("{")) {
          throw new IOException("the server was started with the word json; this layer needs "
              + "words");
        }
        return reply;
      } catch (Lost lost) {
        if (request.equals("quit") || System.nanoTime() > deadline) {
          throw new UncheckedIOException(lost);
        }
        try {
          recover(lost);
        } catch (IOException e) {
          throw new UncheckedIOException(e);
        }
      } catch (IOException e) {
        throw new UncheckedIOException(e);
      }
      if (request.startsWith("bid ")) {
        throw new Unanswered(request);
      }
    }
  }

  /** How many request lines were sent. */
  synchronized int sent() {
    return sent;
  }

  void close() throws IOException {
    record.close();
    socket.close();
  }

  private void open() throws IOException {
    socket = new Socket();
    try {
      socket.connect(new InetSocketAddress(host, port), TRY);
      socket.setTcpNoDelay(true);
      socket.setKeepAlive(true);
      for (SocketOption<?> option : socket.supportedOptions()) {
        Integer value = KEEPALIVE.get(option.name());
        if (value != null) {
          @SuppressWarnings("unchecked") // all three are numbers
          SocketOption<Integer> number = (SocketOption<Integer>) option;
          socket.setOption(number, value);
        }
      }
      from = new BufferedInputStream(socket.getInputStream());
      to = socket.getOutputStream();
      record = new LinkRecord();
    } catch (IOException | RuntimeException e) {
      socket.close();
      throw e;
    }
  }

  /** Asks for the seat. Returns the ten lines, each of which may take so long, or the refusal. */
  private List<String> welcome(int milliseconds) throws IOException {
    socket.setSoTimeout(milliseconds);
    send("hello " + word);
    List<String> lines = new ArrayList<>(List.of(line()));
    if (lines.get(0).startsWith("welcome ")) {
      record.seat(word);
      while (lines.size() < WELCOME) {
        lines.add(line());
      }
      isSeated = true;
      socket.setSoTimeout(limit);
    }
    return lines;
  }

  /**
   * Connects a lost link again, as the lobby allows: while the old link has the seat, the answer is
   * `refused taken`. Says so, and returns the welcome.
   */
  private List<String> recover(Lost lost) throws IOException {
    long begun = System.nanoTime();
    String fault = "";
    long since = begun;
    while (true) {
      close();
      if (System.nanoTime() - since > BACK * 1_000_000L) {
        throw new IOException(word + ": no link within " + BACK / 1000 + " seconds" + fault);
      }
      long tried = System.nanoTime();
      try {
        open();
        List<String> lines = welcome(isSeated ? TRY : 0);
        if (lines.size() == WELCOME) {
          System.err.printf("agent: %s; reconnected after %.1f seconds%n", lost.getMessage(),
              (System.nanoTime() - begun) / 1e9);
          return lines;
        }
        if (!lines.get(0).equals("refused taken")) {
          return lines;
        }
        fault = " (" + lines.get(0) + ")";
      } catch (ConnectException e) {
        throw lost; // the server has ended
      } catch (IOException e) {
        fault = " (" + e.getMessage() + ")";
      }
      if (!isSeated && System.nanoTime() - tried > TRY * 1_000_000L) {
        since = System.nanoTime(); // it had waited for its game
      }
      try {
        Thread.sleep(BETWEEN);
      } catch (InterruptedException e) {
        throw new InterruptedIOException("interrupted");
      }
    }
  }

  private String line() throws IOException {
    ByteArrayOutputStream line = new ByteArrayOutputStream();
    for (int read = read(); read != '\n'; read = read()) {
      line.write(read);
    }
    String text = line.toString(StandardCharsets.ISO_8859_1.name());
    line.write('\n');
    record.hear(line.toByteArray());
    return text;
  }

  private int read() throws Lost {
    int read;
    try {
      read = from.read();
    } catch (SocketTimeoutException e) {
      throw new Lost("no reply in time");
    } catch (IOException e) {
      read = -1;
    }
    if (read < 0) {
      throw new Lost("the link was closed");
    }
    return read;
  }

  private void send(String line) {
    byte[] bytes = (line + "\n").getBytes(StandardCharsets.US_ASCII);
    record.ask(bytes);
    try {
      to.write(bytes);
    } catch (IOException e) {
      // then no reply comes either
    }
  }

  /** What the variable AGENT_LIMIT says, in seconds, or else ten. */
  private static int limit() {
    String seconds = System.getenv().getOrDefault("AGENT_LIMIT", "10");
    try {
      return (int) Math.round(1000 * Double.parseDouble(seconds));
    } catch (NumberFormatException e) {
      throw new IllegalArgumentException("the variable AGENT_LIMIT: no number: " + seconds);
    }
  }
}
