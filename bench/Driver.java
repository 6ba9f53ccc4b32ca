// dump, check and pack over Java's org.bson, to stand beside bsonfind: Driver COMMAND FILE.
// Built by bench.py, where Debian's libmongodb-java is installed. What it reads is piped to what it writes, with no document between;
// its check reads each document into one, and puts another character in the place of bad UTF-8.

import java.io.BufferedInputStream;
import java.io.BufferedOutputStream;
import java.io.BufferedReader;
import java.io.BufferedWriter;
import java.io.DataInputStream;
import java.io.EOFException;
import java.io.FileDescriptor;
import java.io.FileInputStream;
import java.io.FileOutputStream;
import java.io.IOException;
import java.io.InputStreamReader;
import java.io.OutputStream;
import java.io.OutputStreamWriter;
import java.io.Writer;
import java.nio.ByteBuffer;
import java.nio.ByteOrder;
import java.nio.charset.StandardCharsets;
import org.bson.BsonBinaryReader;
import org.bson.BsonBinaryWriter;
import org.bson.BsonDocument;
import org.bson.BsonDocumentWriter;
import org.bson.io.BasicOutputBuffer;
import org.bson.json.JsonMode;
import org.bson.json.JsonReader;
import org.bson.json.JsonWriter;
import org.bson.json.JsonWriterSettings;

public class Driver {
  interface Each {
    void take(BsonBinaryReader document) throws IOException;
  }

  /** Gives each document of a dump, in a buffer that the next one takes. */
  static void documents(String name, Each each) throws IOException {
    DataInputStream in = new DataInputStream(new BufferedInputStream(new FileInputStream(name), 1 << 20));
    byte[] room = new byte[1 << 16];
    while (true) {
      int size;
      try {
        size = Integer.reverseBytes(in.readInt());
      } catch (EOFException end) {
        return;
      }
      if (size < 5 || size > 16793600) throw new IOException("bad length");
      if (room.length < size) room = new byte[size];
      ByteBuffer document = ByteBuffer.wrap(room, 0, size).order(ByteOrder.LITTLE_ENDIAN);
      document.putInt(0, size);
      in.readFully(room, 4, size - 4);
      each.take(new BsonBinaryReader(document));
    }
  }

  static void dump(String name, OutputStream to) throws IOException {
    Writer out = new BufferedWriter(new OutputStreamWriter(to, StandardCharsets.UTF_8), 1 << 18);
    JsonWriterSettings canonical = JsonWriterSettings.builder().outputMode(JsonMode.EXTENDED).build();
    documents(name, document -> {
      new JsonWriter(out, canonical).pipe(document);
      out.write('\n');
    });
    out.flush();
  }

  static void pack(String name, OutputStream to) throws IOException {
    BufferedReader in = new BufferedReader(new InputStreamReader(new FileInputStream(name), StandardCharsets.UTF_8), 1 << 20);
    OutputStream out = new BufferedOutputStream(to, 1 << 20);
    BasicOutputBuffer bytes = new BasicOutputBuffer();
    for (String line = in.readLine(); line != null; line = in.readLine()) {
      bytes.truncateToPosition(0);
      try (BsonBinaryWriter document = new BsonBinaryWriter(bytes)) {
        document.pipe(new JsonReader(line));
      }
      out.write(bytes.getInternalBuffer(), 0, bytes.getSize());
    }
    out.flush();
  }

  public static void main(String[] words) throws IOException {
    OutputStream out = new FileOutputStream(FileDescriptor.out);
    switch (words[0]) {
      case "dump": dump(words[1], out); break;
      case "check": documents(words[1], document -> new BsonDocumentWriter(new BsonDocument()).pipe(document)); break;
      case "pack": pack(words[1], out); break;
      default: throw new IOException("usage: Driver dump|check|pack FILE");
    }
  }
}
