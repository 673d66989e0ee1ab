import java.io.BufferedReader;
import java.io.InputStreamReader;
import java.nio.charset.StandardCharsets;
import org.apache.avro.AvroTypeException;
import org.apache.avro.Schema;

/** Reads texts in hexadecimal digits, one to a line; prints for each two words, what Apache Avro's own reader says of it without and with its
 *  test of defaults: `ok`, `default` where it says that a default is not valid, or else `refused`. */
public class Defaults {
    public static void main(String[] args) throws Exception {
        BufferedReader in = new BufferedReader(new InputStreamReader(System.in, StandardCharsets.US_ASCII));
        for (String line = in.readLine(); line != null; line = in.readLine()) {
            String text = new String(bytes(line), StandardCharsets.UTF_8);
            System.out.println(said(text, false) + " " + said(text, true));
        }
    }

    static String said(String text, boolean tested) {
        try {
            new Schema.Parser().setValidateDefaults(tested).parse(text);
            return "ok";
        } catch (AvroTypeException e) {
            return "default";
        } catch (Exception e) {
            return "refused";
        } catch (StackOverflowError e) {
            return "endless";
        }
    }

    static byte[] bytes(String line) {
        byte[] out = new byte[line.length() / 2];
        for (int i = 0; i < out.length; i++)
            out[i] = (byte) Integer.parseInt(line.substring(2 * i, 2 * i + 2), 16);
        return out;
    }
}
