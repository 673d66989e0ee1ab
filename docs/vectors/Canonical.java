import java.io.BufferedReader;
import java.io.InputStreamReader;
import java.nio.charset.StandardCharsets;
import org.apache.avro.Schema;
import org.apache.avro.SchemaNormalization;

/** Reads texts in hexadecimal digits, one to a line; prints for each the canonical text in hexadecimal digits and the fingerprint
 *  as a signed number, both by Apache Avro's own SchemaNormalization, or `refused`. */
public class Canonical {
    public static void main(String[] args) throws Exception {
        BufferedReader in = new BufferedReader(new InputStreamReader(System.in, StandardCharsets.US_ASCII));
        for (String line = in.readLine(); line != null; line = in.readLine()) {
            try {
                Schema schema = new Schema.Parser().parse(new String(bytes(line), StandardCharsets.UTF_8));
                String text = SchemaNormalization.toParsingForm(schema);
                System.out.println(hex(text.getBytes(StandardCharsets.UTF_8)) + " " + SchemaNormalization.parsingFingerprint64(schema));
            } catch (Exception e) {
                System.out.println("refused");
            }
        }
    }

    static byte[] bytes(String line) {
        if (line.equals("-"))
            return new byte[0];
        byte[] out = new byte[line.length() / 2];
        for (int i = 0; i < out.length; i++)
            out[i] = (byte) Integer.parseInt(line.substring(2 * i, 2 * i + 2), 16);
        return out;
    }

    static String hex(byte[] bytes) {
        StringBuilder out = new StringBuilder();
        for (byte b : bytes)
            out.append(String.format("%02x", b));
        return out.toString();
    }
}
