/** Prints the rows of arithmetic that jl_ops_tests tries: the operands, and what Java computes of them in each column. */
public class Arithmetic {
    interface Quotient {
        long of();
    }

    static String by(Quotient quotient, String unit) {
        try {
            return quotient.of() + unit;
        } catch (ArithmeticException e) {
            return e.getMessage().replace("/ by zero", "/0");
        }
    }

    static String of(int n) {
        return "BIPUSH:" + n;
    }

    static String of(long n) {
        return "LDC2_W:" + n;
    }

    static void row(String operands, Object... results) {
        StringBuilder line = new StringBuilder("    \"" + operands + " =");
        for (Object result : results) {
            line.append(' ').append(result);
        }
        System.out.println(line + "\",");
    }

    static void ints(int a, int b) {
        row(of(a) + " " + of(b), a + b, a - b, a * b, by(() -> a / b, ""), by(() -> a % b, ""), a & b, a | b, a ^ b, a << b,
            a >> b, a >>> b);
    }

    static void longs(long a, long b) {
        row(of(a) + " " + of(b), a + b + "L", a - b + "L", a * b + "L", by(() -> a / b, "L"), by(() -> a % b, "L"), (a & b) + "L",
            (a | b) + "L", (a ^ b) + "L", Long.compare(a, b));
    }

    static void shifts(long a, int b) {
        row(of(a) + " " + of(b), (a << b) + "L", (a >> b) + "L", (a >>> b) + "L");
    }

    public static void main(String[] args) {
        int least = Integer.MIN_VALUE;
        int most = Integer.MAX_VALUE;
        System.out.println("INTS: IADD ISUB IMUL IDIV IREM IAND IOR IXOR ISHL ISHR IUSHR");
        int[][] pairs = {{7, 2}, {-7, 2}, {7, -2}, {-7, -2}, {most, 1}, {least, 1}, {least, -1}, {least, least}, {65536, 65537},
            {5, 0}, {0, 5}, {-1, 31}, {-1, 32}, {1, 33}, {-9, 63}};
        for (int[] p : pairs) {
            ints(p[0], p[1]);
        }
        System.out.println("LONGS: LADD LSUB LMUL LDIV LREM LAND LOR LXOR LCMP");
        long[][] wide = {{7, 2}, {-7, 2}, {7, -2}, {-7, -2}, {Long.MAX_VALUE, 1}, {Long.MIN_VALUE, 1}, {Long.MIN_VALUE, -1},
            {4294967296L, 4294967297L}, {5, 0}, {-3, -3}, {Long.MIN_VALUE, Long.MAX_VALUE}};
        for (long[] p : wide) {
            longs(p[0], p[1]);
        }
        System.out.println("SHIFTS: LSHL LSHR LUSHR");
        for (long a : new long[] {1, -1, Long.MIN_VALUE}) {
            for (int b : new int[] {0, 1, 32, 63, 64, 65, -1}) {
                shifts(a, b);
            }
        }
        System.out.println("CONVERSIONS: INEG I2B I2C I2S I2L");
        for (int n : new int[] {0, 1, -1, 127, 128, -129, 32768, 65535, 65536, -65537, most, least}) {
            row(of(n), -n, (byte) n, (int) (char) n, (short) n, (long) n + "L");
        }
        System.out.println("LONG_CONVERSIONS: LNEG L2I");
        for (long n : new long[] {0, 1, -1, 2147483648L, 4294967295L, 4294967296L, -4294967297L, Long.MAX_VALUE, Long.MIN_VALUE}) {
            row(of(n), -n + "L", (int) n);
        }
    }
}
