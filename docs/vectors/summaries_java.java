// Data written by Apache Avro's own Java code, for summaries.data.
//
// Run by summaries_python.py, which gives it summaries.declarations and writes summaries.data:
//     java -cp JARS docs/vectors/summaries_java.java < docs/vectors/summaries.declarations
// (Debian's libavro-java 1.8.2 and default-jdk-headless 17; JARS as in canonical.py.) It prints a line for each set, declaration and datum:
//     set
//     declaration own FINGERPRINT TEXT        the eight bytes by SchemaNormalization, lowest first
//     declaration refers FINGERPRINT TEXT     the same, of a declaration that refers to an earlier one of its set: Java writes the definition into
//                                             the canonical text, and so its fingerprint is another than the one by document 01
//     datum PLACE WRITER HEX OFFSETS VALUE
// WRITER is java (BinaryMessageEncoder, which writes marker and fingerprint; BinaryEncoder, no block sizes), java-blocks (BlockingBinaryEncoder with
// blocks of 64 bytes) or java-long-blocks (the same of 65,536 bytes). HEX is the datum. OFFSETS are where the fields and taken branches begin, and the
// end, counted from the datum's first byte: found by reading the datum again with Avro's DirectBinaryDecoder over a stream that counts its bytes. VALUE
// is GenericData's text of what was written. The data are drawn by a seeded generator.
import java.io.*;
import java.nio.ByteBuffer;
import java.nio.charset.StandardCharsets;
import java.util.*;
import org.apache.avro.*;
import org.apache.avro.generic.*;
import org.apache.avro.io.*;
import org.apache.avro.message.BinaryMessageEncoder;

class SummariesJava {
    static final int DATA = 5;
    static final Set<String> DONE = new HashSet<>();

    public static void main(String[] args) throws Exception {
        BufferedReader in = new BufferedReader(new InputStreamReader(System.in, StandardCharsets.UTF_8));
        PrintStream out = new PrintStream(new FileOutputStream(FileDescriptor.out), false, "UTF-8");
        Schema.Parser parser = null;
        int place = 0, number = 0;
        for (String line = in.readLine(); line != null; line = in.readLine()) {
            if (line.startsWith("#"))
                continue;
            if (line.isEmpty()) {
                parser = null;
                continue;
            }
            if (parser == null) {
                parser = new Schema.Parser();
                place = 0;
                out.println("set");
            }
            Schema schema = parser.parse(line);
            // a text that refers to an earlier one is refused by a reader that knows none
            boolean alone = true;
            Schema own = null;
            try {
                own = new Schema.Parser().parse(line);
            } catch (Exception e) {
                alone = false;
            }
            byte[] fingerprint = SchemaNormalization.parsingFingerprint("CRC-64-AVRO", schema);
            if (alone && !Arrays.equals(fingerprint, SchemaNormalization.parsingFingerprint("CRC-64-AVRO", own)))
                throw new Exception("fingerprint of " + line);
            out.println("declaration " + (alone ? "own " : "refers ") + hex(fingerprint) + " " + line);
            DONE.clear();
            boolean many = number % 2 == 0 && (schema.getType() == Schema.Type.ARRAY || schema.getType() == Schema.Type.MAP);
            for (int i = 0; i < (many ? DATA + 1 : DATA); i++) {
                Random random = new Random(1000L * number + i);
                for (int tries = 0; tries < 400; tries++) {
                    boolean large = i == DATA - 1, larger = i == DATA;
                    Object datum = new Maker(random, larger ? 300 : large ? 40 : i == 0 ? 0 : 3).make(schema, 0);
                    byte[] whole = bytesOf(new BinaryMessageEncoder<Object>(GenericData.get(), schema).encode(datum));
                    if (whole[0] != (byte) 0xc3 || whole[1] != 1 || !Arrays.equals(Arrays.copyOfRange(whole, 2, 10), fingerprint))
                        throw new Exception("header of " + line);
                    byte[] plain = Arrays.copyOfRange(whole, 10, whole.length);
                    if (plain.length > (larger ? 800 : large ? 260 : 70) || larger && plain.length < 250 || DONE.contains(hex(plain)))
                        continue;
                    DONE.add(hex(plain));
                    tell(out, place, "java", schema, plain, datum);
                    tell(out, place, "java-blocks", schema, blocked(schema, datum, 64), datum);
                    tell(out, place, "java-long-blocks", schema, blocked(schema, datum, 65536), datum);
                    break;
                }
            }
            place++;
            number++;
        }
        out.flush();
    }

    static void tell(PrintStream out, int place, String writer, Schema schema, byte[] data, Object datum) throws Exception {
        if (!writer.equals("java")) {
            if (DONE.contains(hex(data)))
                return;
            DONE.add(hex(data));
        }
        List<Integer> offsets = new ArrayList<>();
        Counted counted = new Counted(data);
        walk(schema, DecoderFactory.get().directBinaryDecoder(counted, null), counted, offsets);
        offsets.add(counted.at);
        if (counted.at != data.length)
            throw new Exception("not at the end");
        StringBuilder o = new StringBuilder();
        for (int n : offsets)
            o.append(o.length() == 0 ? "" : ",").append(n);
        out.println("datum " + place + " " + writer + " " + (data.length == 0 ? "-" : hex(data)) + " " + o + " " + ascii(String.valueOf(GenericData.get().toString(datum))));
    }

    static byte[] blocked(Schema schema, Object datum, int size) throws IOException {
        ByteArrayOutputStream bytes = new ByteArrayOutputStream();
        BinaryEncoder encoder = new EncoderFactory().configureBlockSize(size).blockingBinaryEncoder(bytes, null);
        new GenericDatumWriter<Object>(schema).write(datum, encoder);
        encoder.flush();
        return bytes.toByteArray();
    }

    /** Reads a datum by Avro's decoder, and keeps where fields and branches begin. */
    static void walk(Schema s, Decoder in, Counted at, List<Integer> offsets) throws IOException {
        switch (s.getType()) {
            case NULL: in.readNull(); break;
            case BOOLEAN: in.readBoolean(); break;
            case INT: in.readInt(); break;
            case LONG: in.readLong(); break;
            case FLOAT: in.readFloat(); break;
            case DOUBLE: in.readDouble(); break;
            case BYTES: in.readBytes(null); break;
            case STRING: in.readString(null); break;
            case FIXED: in.readFixed(new byte[s.getFixedSize()]); break;
            case ENUM: in.readEnum(); break;
            case RECORD:
                for (Schema.Field f : s.getFields()) {
                    offsets.add(at.at);
                    walk(f.schema(), in, at, offsets);
                }
                break;
            case UNION:
                Schema taken = s.getTypes().get(in.readIndex());
                offsets.add(at.at);
                walk(taken, in, at, offsets);
                break;
            case ARRAY:
                for (long n = in.readArrayStart(); n != 0; n = in.arrayNext())
                    for (long i = 0; i < n; i++)
                        walk(s.getElementType(), in, at, offsets);
                break;
            case MAP:
                for (long n = in.readMapStart(); n != 0; n = in.mapNext())
                    for (long i = 0; i < n; i++) {
                        in.readString(null);
                        walk(s.getValueType(), in, at, offsets);
                    }
                break;
        }
    }

    static class Counted extends ByteArrayInputStream {
        int at = 0;
        Counted(byte[] b) { super(b); }
        @Override public int read() { int r = super.read(); if (r >= 0) at++; return r; }
        @Override public int read(byte[] b, int from, int n) { int r = super.read(b, from, n); if (r > 0) at += r; return r; }
        @Override public long skip(long n) { long r = super.skip(n); at += r; return r; }
    }

    /** Draws a value of a schema. */
    static class Maker {
        final Random random;
        final int most;
        int left = 120;

        Maker(Random random, int most) {
            this.random = random;
            this.most = most;
            if (most > 40)
                left = 500;
        }

        static final int[] INTS = {0, -1, 1, -2, 63, -64, 64, -65, 8191, 8192, -8193, 1048575, 1048576, 134217727, 134217728, -134217729, Integer.MAX_VALUE, Integer.MIN_VALUE};
        static final long[] LONGS = {0, -1, 1, 63, 64, -65, 1L << 31, -(1L << 31) - 1, 1L << 34, 1L << 41, 1L << 48, 1L << 55, (1L << 62) - 1, 1L << 62, Long.MAX_VALUE, Long.MIN_VALUE};
        static final float[] FLOATS = {0f, -0f, 1.5f, Float.NaN, Float.POSITIVE_INFINITY, Float.MIN_VALUE, -Float.MAX_VALUE};
        static final double[] DOUBLES = {0, -0d, 0.1, Double.NaN, Double.NEGATIVE_INFINITY, Double.MIN_VALUE, Double.MAX_VALUE};
        static final String[] STRINGS = {"", "a", "\u0000", "\u007f\u0080", "\u00e9\u00df", "\u0416", "\u20ac", "\ufffd\uffff", "\ud83d\ude00", "\udbff\udfff", "two words", "\"\\/\n",
            "123456789012345678901234567890123456789012345678901234567890123", "1234567890123456789012345678901234567890123456789012345678901234"};

        Object make(Schema s, int depth) {
            left--;
            switch (s.getType()) {
                case NULL: return null;
                case BOOLEAN: return random.nextBoolean();
                case INT: return random.nextInt(3) == 0 ? random.nextInt() : INTS[random.nextInt(INTS.length)];
                case LONG: return random.nextInt(3) == 0 ? random.nextLong() >> random.nextInt(64) : LONGS[random.nextInt(LONGS.length)];
                case FLOAT: return FLOATS[random.nextInt(FLOATS.length)];
                case DOUBLE: return DOUBLES[random.nextInt(DOUBLES.length)];
                case BYTES: return ByteBuffer.wrap(bytes(random.nextInt(7)));
                case STRING: return text();
                case FIXED: return new GenericData.Fixed(s, bytes(s.getFixedSize()));
                case ENUM: return new GenericData.EnumSymbol(s, s.getEnumSymbols().get(random.nextInt(s.getEnumSymbols().size())));
                case RECORD: {
                    GenericData.Record r = new GenericData.Record(s);
                    for (Schema.Field f : s.getFields())
                        r.put(f.pos(), make(f.schema(), depth + 1));
                    return r;
                }
                case UNION: {
                    List<Schema> members = s.getTypes();
                    for (Schema m : members)
                        if (m.getType() == Schema.Type.NULL && (left < 0 || depth > 24))
                            return null;
                    return make(members.get(random.nextInt(members.size())), depth + 1);
                }
                case ARRAY: {
                    List<Object> items = new ArrayList<>();
                    for (int n = count(depth); n > 0; n--)
                        items.add(make(s.getElementType(), depth + 1));
                    return items;
                }
                case MAP: {
                    Map<String, Object> items = new LinkedHashMap<>();
                    for (int n = count(depth); n > 0; n--)
                        items.put(random.nextBoolean() ? text() : "k" + items.size(), make(s.getValueType(), depth + 1));
                    return items;
                }
                default: throw new IllegalStateException();
            }
        }

        int count(int depth) {
            return left < 0 || depth > 24 ? 0 : most > 3 && depth < 2 ? random.nextInt(most) : random.nextInt(Math.min(most, 3) + 1);
        }

        String text() { return STRINGS[random.nextInt(STRINGS.length - (most > 3 || left < 100 ? 2 : 0))]; }

        byte[] bytes(int n) {
            byte[] out = new byte[n];
            random.nextBytes(out);
            return out;
        }
    }

    static byte[] bytesOf(ByteBuffer b) {
        byte[] out = new byte[b.remaining()];
        b.get(out);
        return out;
    }

    static String hex(byte[] bytes) {
        StringBuilder out = new StringBuilder();
        for (byte b : bytes)
            out.append(String.format("%02x", b));
        return out.toString();
    }

    static String ascii(String s) {
        StringBuilder out = new StringBuilder();
        for (char c : s.toCharArray())
            out.append(c >= 32 && c < 127 ? String.valueOf(c) : String.format("\\u%04x", (int) c));
        return out.toString();
    }
}
