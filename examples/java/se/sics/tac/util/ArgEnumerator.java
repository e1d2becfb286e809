package se.sics.tac.util;

import java.util.List;
import java.util.NoSuchElementException;

/**
 * The words of the command line: options `-name value`, flags `-name`, and plain words. An option
 * that nobody asks for is no error.
 */
public class ArgEnumerator {
  private final List<String> words;
  private int next;

  public ArgEnumerator(String[] words) {
    this.words = List.of(words);
  }

  /** Whether the option or flag is there; its name may be given with `-` or without. */
  public boolean hasArgument(String name) {
    return find(name) >= 0;
  }

  public boolean hasArgument(String name, String description) {
    return hasArgument(name);
  }

  /** The word after the option, or null. */
  public String getArgument(String name) {
    int place = find(name);
    return place >= 0 && place + 1 < words.size() ? words.get(place + 1) : null;
  }

  public String getArgument(String name, String description) {
    return getArgument(name);
  }

  public String getArgument(String name, String description, String otherwise) {
    String value = getArgument(name);
    return value == null ? otherwise : value;
  }

  public int getArgumentAsInt(String name, int otherwise) {
    String value = getArgument(name);
    try {
      return value == null ? otherwise : Integer.parseInt(value);
    } catch (NumberFormatException e) {
      throw new IllegalArgumentException("option " + name + ": no whole number: " + value);
    }
  }

  public int getArgumentAsInt(String name, String description, int otherwise) {
    return getArgumentAsInt(name, otherwise);
  }

  public boolean hasNext() {
    return next < words.size();
  }

  public String next() {
    if (!hasNext()) {
      throw new NoSuchElementException("no word is left");
    }
    return words.get(next++);
  }

  /** Does nothing: the layer asks for its own options, and leaves all others to the agent. */
  public void finishArguments() {}

  private int find(String name) {
    return words.indexOf(name.startsWith("-") ? name : "-" + name);
  }
}
