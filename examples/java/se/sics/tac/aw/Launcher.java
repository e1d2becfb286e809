package se.sics.tac.aw;

import java.io.File;
import java.io.FileReader;
import java.io.IOException;
import java.io.Reader;
import java.io.UncheckedIOException;
import java.util.Arrays;
import java.util.List;
import java.util.Properties;
import se.sics.tac.util.ArgEnumerator;

/** Reads the command line and the file of settings, and plays the games. */
final class Launcher {
  private static final String SETTINGS = "agent.conf";

  private final ArgEnumerator args;
  private final Properties file = new Properties();

  private Launcher(String[] words) throws IOException {
    args = new ArgEnumerator(words);
    String name = args.getArgument("config", "", SETTINGS);
    if (args.hasArgument("config") || new File(name).exists()) {
      try (Reader reader = new FileReader(name)) {
        file.load(reader);
      }
    }
  }

  static void main(String[] words) {
    int status = 1;
    try {
      new Launcher(words).run(words);
      status = 0;
    } catch (IOException | IllegalArgumentException e) {
      System.err.println("agent: " + e.getMessage());
    } catch (UncheckedIOException e) { // of a request
      System.err.println("agent: " + e.getCause().getMessage());
    } catch (InterruptedException e) {
      System.err.println("agent: interrupted");
    }
    System.exit(status); // threads of the agent may be left
  }

  private void run(String[] words) throws IOException, InterruptedException {
    int place = plain(words);
    boolean plain = place >= 0;
    String host = plain ? words[place] : option("host", "localhost");
    int port = number("port", plain ? words[place + 1] : option("port", "7000"));
    String word = plain ? words[place + 2] : option("agent", "seat0");
    int pace = number("pace", option("pace", "0"));
    int games = number("games", option("games", "1"));
    AgentImpl impl = load(option("agentimpl", "se.sics.tac.aw.DummyAgent"));
    impl.agent = new TACAgent(impl, word);
    impl.init(args); // before the link is opened: it may take its time
    for (int game = 0; game < games; game++) {
      play(impl, host, port, word, pace);
    }
  }

  /**
   * Where HOST PORT WORD stand in a row, as scripts that start agents give them; below 0 if they do
   * not. Options may stand before and after them.
   */
  private static int plain(String[] words) {
    for (int place = words.length - 3; place >= 0; place--) {
      boolean isOption = words[place].startsWith("-") || words[place + 2].startsWith("-");
      if (!isOption && words[place + 1].matches("[0-9]+")) {
        return place;
      }
    }
    return -1;
  }

  private void play(AgentImpl impl, String host, int port, String word, int pace)
      throws IOException, InterruptedException {
    Link link = Link.connect(host, port);
    List<String> welcome = link.greet(word);
    GameClock clock = new GameClock(pace);
    int[] tickets = numbers(welcome.get(1), 2); // after `endow A`
    int[][] clients = new int[TACAgent.CLIENTS][];
    for (int client = 0; client < clients.length; client++) {
      clients[client] = numbers(welcome.get(2 + client), 3); // after `client A K`
    }
    impl.agent.begin(link, clock, tickets, clients);
    new GameLoop(impl, link, clock, args.hasArgument("probe")).play();
  }

  private static AgentImpl load(String name) {
    try {
      Class<?> found = Class.forName(name);
      return found.asSubclass(AgentImpl.class).getDeclaredConstructor().newInstance();
    } catch (ClassCastException e) {
      throw new IllegalArgumentException("the class " + name + " does not extend AgentImpl");
    } catch (ReflectiveOperationException | LinkageError e) {
      throw new IllegalArgumentException("no agent of the class " + name + ": " + e);
    }
  }

  private String option(String name, String otherwise) {
    return args.getArgument(name, "", file.getProperty(name, otherwise));
  }

  private static int number(String name, String word) {
    try {
      return Integer.parseInt(word);
    } catch (NumberFormatException e) {
      throw new IllegalArgumentException(name + ": no whole number: " + word);
    }
  }

  private static int[] numbers(String line, int from) {
    return Arrays.stream(line.split(" ")).skip(from).mapToInt(Integer::parseInt).toArray();
  }
}
