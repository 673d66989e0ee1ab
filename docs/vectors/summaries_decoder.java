// What Apache Avro's own decoder says of data, for summaries_decoder.py (Debian's libavro-java 1.8.2, default-jdk-headless 17).
//
//     java -cp JARS docs/vectors/summaries_decoder.java
// It reads lines `set` (a new set), `declaration HEX` and `datum PLACE HEX`, and answers each datum by the offsets of its fields, taken branches and end, joined by
// commas; `left OFFSET` where bytes are left over; `refused WHY` (the exception's class); `no` where it does not take a declaration of the set.
import java.io.*;
import java.nio.charset.StandardCharsets;
import java.util.*;
import org.apache.avro.*;
import org.apache.avro.io.*;

class SummariesDecoder {
    public static void main(String[] args) throws Exception {
        BufferedReader in = new BufferedReader(new InputStreamReader(System.in, StandardCharsets.US_ASCII));
        PrintStream out = new PrintStream(new FileOutputStream(FileDescriptor.out), false, "UTF-8");
        Schema.Parser parser = null;
        List<Schema> schemas = null;
        for (String line = in.readLine(); line != null; line = in.readLine()) {
            String[] words = line.split(" ");
            if (words[0].equals("set")) {
                parser = new Schema.Parser();
                schemas = new ArrayList<>();
            } else if (words[0].equals("declaration")) {
                try {
                    if (schemas != null)
                        schemas.add(parser.parse(new String(bytes(words[1]), StandardCharsets.UTF_8)));
                } catch (Exception e) {
                    schemas = null;
                }
            } else {
                out.println(schemas == null ? "no" : said(schemas.get(Integer.parseInt(words[1])), bytes(words[2])));
            }
        }
        out.flush();
    }

    static String said(Schema schema, byte[] data) {
        List<Integer> offsets = new ArrayList<>();
        Counted counted = new Counted(data);
        try {
            walk(schema, DecoderFactory.get().directBinaryDecoder(counted, null), counted, offsets);
        } catch (Exception | StackOverflowError | OutOfMemoryError e) {
            return "refused " + e.getClass().getSimpleName();
        }
        if (counted.at != data.length)
            return "left " + counted.at;
        StringBuilder o = new StringBuilder();
        for (int n : offsets)
            o.append(n).append(",");
        return o.append(counted.at).toString();
    }

    static void walk(Schema s, Decoder in, Counted at, List<Integer> offsets) throws IOException {
        if (offsets.size() > 20000)
            throw new IOException("endless");
        switch (s.getType()) {
            case NULL: in.readNull(); break;
            case BOOLEAN: in.readBoolean(); break;
            case INT: in.readInt(); break;
            case LONG: in.readLong(); break;
            case FLOAT: in.readFloat(); break;
            case DOUBLE: in.readDouble(); break;
            case BYTES: in.readBytes(null); break;
            case STRING: in.readString(null); break;
            case FIXED: in.readFixed(new byte[s.getFixedSize()]); break;
            case ENUM: s.getEnumSymbols().get(in.readEnum()); break;
            case RECORD:
                for (Schema.Field f : s.getFields()) {
                    offsets.add(at.at);
                    walk(f.schema(), in, at, offsets);
                }
                break;
            case UNION:
                Schema taken = s.getTypes().get(in.readIndex());
                offsets.add(at.at);
                walk(taken, in, at, offsets);
                break;
            case ARRAY:
                for (long n = in.readArrayStart(); n != 0; n = in.arrayNext())
                    for (long i = 0; i < counted(n); i++)
                        walk(s.getElementType(), in, at, offsets);
                break;
            case MAP:
                for (long n = in.readMapStart(); n != 0; n = in.mapNext())
                    for (long i = 0; i < counted(n); i++) {
                        in.readString(null);
                        walk(s.getValueType(), in, at, offsets);
                    }
                break;
        }
    }

    /** A count that the walk will take on; items of no bytes could go on for ever. */
    static long counted(long n) throws IOException {
        if (n > 100000 || n < 0)
            throw new IOException("endless");
        return n;
    }

    static class Counted extends ByteArrayInputStream {
        int at = 0;
        Counted(byte[] b) { super(b); }
        @Override public int read() { int r = super.read(); if (r >= 0) at++; return r; }
        @Override public int read(byte[] b, int from, int n) { int r = super.read(b, from, n); if (r > 0) at += r; return r; }
        @Override public long skip(long n) { long r = super.skip(n); at += r; return r; }
    }

    static byte[] bytes(String line) {
        if (line.equals("-"))
            return new byte[0];
        byte[] out = new byte[line.length() / 2];
        for (int i = 0; i < out.length; i++)
            out[i] = (byte) Integer.parseInt(line.substring(2 * i, 2 * i + 2), 16);
        return out;
    }
}
