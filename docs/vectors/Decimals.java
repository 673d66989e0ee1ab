import java.io.BufferedReader;
import java.io.InputStreamReader;
import java.nio.charset.StandardCharsets;
import org.apache.avro.LogicalTypes;
import org.apache.avro.Schema;

/** Reads declarations, one to a line; prints for each what Apache Avro's own reader says of its decimal: `PRECISION SCALE`, `plain`
 *  where there is none, or `refused`. */
public class Decimals {
    public static void main(String[] args) throws Exception {
        BufferedReader in = new BufferedReader(new InputStreamReader(System.in, StandardCharsets.US_ASCII));
        for (String line = in.readLine(); line != null; line = in.readLine())
            System.out.println(said(line));
    }

    static String said(String text) {
        try {
            Schema schema = new Schema.Parser().parse(text);
            if (!(schema.getLogicalType() instanceof LogicalTypes.Decimal))
                return "plain";
            LogicalTypes.Decimal decimal = (LogicalTypes.Decimal) schema.getLogicalType();
            return decimal.getPrecision() + " " + decimal.getScale();
        } catch (Exception e) {
            return "refused";
        }
    }
}
