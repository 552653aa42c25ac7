// Compares a dump of our answers, read from standard input, with StrictMath's, bit for bit with NaN matching NaN.
import java.io.BufferedInputStream;
import java.io.DataInputStream;
import java.io.EOFException;
import java.io.IOException;
import java.util.function.DoubleUnaryOperator;

public class StrictCompare {
    // StrictMath's function of our name.
    static DoubleUnaryOperator named(String name) {
        switch (name) {
            case "root": return StrictMath::sqrt;
            case "log": return StrictMath::log;
            case "log1p": return StrictMath::log1p;
            case "acos": return StrictMath::acos;
            default: throw new IllegalArgumentException("StrictMath has no " + name);
        }
    }

    // Compares pairs of an input and our answer until the dump ends, prints the first few differences and gives back how many there are.
    static long compare(String name, DataInputStream dump) throws IOException {
        DoubleUnaryOperator reference = named(name);
        long inputs = 0;
        long differences = 0;
        while (true) {
            long input;
            try {
                input = dump.readLong();
            } catch (EOFException end) {
                break;
            }
            double ours = Double.longBitsToDouble(dump.readLong());
            double theirs = reference.applyAsDouble(Double.longBitsToDouble(input));
            inputs++;
            // doubleToLongBits has one pattern for every NaN.
            if (Double.doubleToLongBits(ours) != Double.doubleToLongBits(theirs) && differences++ < 5) {
                System.out.printf("%s: input %016x, ours %016x, StrictMath %016x%n", name, input,
                    Double.doubleToLongBits(ours), Double.doubleToLongBits(theirs));
            }
        }
        System.out.printf("%s: %d inputs compared with StrictMath, %d differences%n", name, inputs, differences);
        return inputs == 0 ? 1 : differences;
    }

    public static void main(String[] arguments) throws IOException {
        DataInputStream dump = new DataInputStream(new BufferedInputStream(System.in, 1 << 16));
        System.exit(compare(arguments[0], dump) == 0 ? 0 : 1);
    }
}
