package se.sics.tac.aw;

import java.io.ByteArrayOutputStream;
import java.io.File;
import java.io.IOException;
import java.io.OutputStream;
import java.nio.file.Files;
import java.nio.file.StandardOpenOption;

/**
 * The record of a link, if the variable AGENT_RECORD names a folder: the bytes that were sent and
 * received, in the files WORD.asked and WORD.said, or WORD.2.asked and WORD.2.said if one of them
 * exists already, and so on. A line is written before it is sent. If a file cannot be written, the
 * agent reports it in a line, and keeps nothing more.
 */
final class LinkRecord {
  private final String folder = System.getenv("AGENT_RECORD");
  private OutputStream asked; // null if nothing is kept
  private OutputStream said;

  LinkRecord() {
    if (folder != null && !folder.isEmpty()) { // in memory, until the link has its seat
      asked = new ByteArrayOutputStream();
      said = new ByteArrayOutputStream();
    }
  }

  /** The link has its seat: the files are made, with what was sent and came so far. */
  void seat(String word) {
    if (!(asked instanceof ByteArrayOutputStream)) {
      return;
    }
    byte[] sent = ((ByteArrayOutputStream) asked).toByteArray();
    byte[] came = ((ByteArrayOutputStream) said).toByteArray();
    try {
      Files.createDirectories(new File(folder).toPath());
      String name = word;
      for (int number = 2; file(name, ".asked").exists() || file(name, ".said").exists(); ) {
        name = word + "." + number++;
      }
      asked = made(file(name, ".asked"));
      said = made(file(name, ".said"));
    } catch (IOException e) {
      giveUp(e);
    }
    ask(sent);
    hear(came);
  }

  /** This is about to be sent. */
  void ask(byte[] bytes) {
    keep(asked, bytes);
  }

  /** This came. */
  void hear(byte[] bytes) {
    keep(said, bytes);
  }

  void close() throws IOException {
    if (asked != null) {
      asked.close();
      said.close();
    }
  }

  private File file(String name, String end) {
    return new File(folder, name + end);
  }

  private void keep(OutputStream to, byte[] bytes) {
    try {
      if (to != null) {
        to.write(bytes);
      }
    } catch (IOException e) {
      giveUp(e);
    }
  }

  private void giveUp(IOException fault) {
    asked = said = null;
    System.err.println("agent: cannot write the record in " + folder + " (" + fault.getMessage()
        + "): the agent plays on without it");
  }

  /** A new file, which only its owner may read, as far as the system can do so: it has the word. */
  private static OutputStream made(File file) throws IOException {
    OutputStream stream = Files.newOutputStream(file.toPath(), StandardOpenOption.CREATE_NEW,
        StandardOpenOption.WRITE);
    file.setReadable(false, false);
    file.setReadable(true, true);
    return stream;
  }
}
