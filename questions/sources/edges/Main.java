/** Prints what each operator gives on each two of some ints and longs, and what conversions and switches make of them. */
public class Main {
    static final int[] INTS = {Integer.MIN_VALUE, Integer.MIN_VALUE + 1, -65537, -32769, -129, -33, -32, -1, 0, 1, 2, 31,
        32, 33, 63, 64, 65, 127, 128, 255, 256, 32768, 65536, Integer.MAX_VALUE - 1, Integer.MAX_VALUE};
    static final long[] LONGS = {Long.MIN_VALUE, Long.MIN_VALUE + 1, -4294967297L, -4294967296L, -2147483649L, -64, -1, 0,
        1, 31, 63, 64, 65, 2147483648L, 4294967295L, 4294967296L, Long.MAX_VALUE - 1, Long.MAX_VALUE};
    static int digest;
    static long wide;

    static void add(int value) {
        digest = digest * 31 + value;
    }

    static void add(long value) {
        wide = wide * 1000003L ^ value;
    }

    static void show() {
        System.out.print(digest);
        System.out.print(' ');
        System.out.println(wide);
    }

    static int apply(int operator, int a, int b) {
        switch (operator) {
            case 0: return a + b;
            case 1: return a - b;
            case 2: return a * b;
            case 3: return a / b;
            case 4: return a % b;
            case 5: return a << b;
            case 6: return a >> b;
            case 7: return a >>> b;
            case 8: return a & b;
            case 9: return a | b;
            case 10: return a ^ b;
            default: return (a < b ? 1 : 0) + (a <= b ? 2 : 0) + (a == b ? 4 : 0) + (a != b ? 8 : 0) + (a > b ? 16 : 0);
        }
    }

    static long apply(int operator, long a, long b) {
        switch (operator) {
            case 0: return a + b;
            case 1: return a - b;
            case 2: return a * b;
            case 3: return a / b;
            case 4: return a % b;
            case 5: return a << b;
            case 6: return a >> (int) b;
            case 7: return a >>> b;
            case 8: return a & b;
            case 9: return a | b;
            case 10: return a ^ b;
            default: return (a < b ? 1 : 0) + (a <= b ? 2 : 0) + (a == b ? 4 : 0) + (a != b ? 8 : 0) + (a > b ? 16 : 0);
        }
    }

    static void ints(int operator, int a) {
        for (int i = 0; i < INTS.length; i++) {
            try {
                add(apply(operator, a, INTS[i]));
            } catch (ArithmeticException raised) {
                add(-i);
            }
        }
    }

    static void longs(int operator, long a) {
        for (int i = 0; i < LONGS.length; i++) {
            try {
                add(apply(operator, a, LONGS[i]));
            } catch (ArithmeticException raised) {
                add(-i);
            }
        }
    }

    static void narrowed(int value) {
        byte b = (byte) value;
        short s = (short) value;
        char c = (char) value;
        boolean z = value != 0;
        b += value;
        s <<= 3;
        c ^= b;
        b--;
        System.out.print(b + s + c);
        System.out.print(z ? ' ' : '-');
        System.out.print((byte) (char) (short) value + (int) (value * 3L >>> 7));
        System.out.print(" ");
        System.out.println((long) value << 33 | (byte) (short) c);
    }

    static int dense(int key) {
        switch (key) {
            case Integer.MIN_VALUE: return 1;
            case Integer.MIN_VALUE + 1: return 2;
            case Integer.MIN_VALUE + 2: return 3;
            default: return 0;
        }
    }

    static int last(int key) {
        switch (key) {
            case Integer.MAX_VALUE - 2: return 1;
            case Integer.MAX_VALUE - 1: return 2;
            case Integer.MAX_VALUE: return 3;
            default: return 0;
        }
    }

    static int sparse(int key) {
        switch (key) {
            case Integer.MIN_VALUE: return 1;
            case -129: return 2;
            case -1: return 3;
            case 0: return 4;
            case 65536: return 5;
            case Integer.MAX_VALUE: return 6;
            default: return 0;
        }
    }

    public static void main(String[] args) {
        for (int operator = 0; operator < 12; operator++) {
            for (int i = 0; i < INTS.length; i++) {
                ints(operator, INTS[i]);
            }
            show();
            for (int i = 0; i < LONGS.length; i++) {
                longs(operator, LONGS[i]);
            }
            show();
        }
        for (int i = 0; i < INTS.length; i++) {
            narrowed(INTS[i]);
            System.out.print(-INTS[i]);
            System.out.print(dense(INTS[i]) * 100 + last(INTS[i]) * 10 + sparse(INTS[i]));
            System.out.println((long) INTS[i]);
        }
        for (int i = 0; i < LONGS.length; i++) {
            System.out.print(-LONGS[i]);
            System.out.println((int) LONGS[i] + (byte) LONGS[i] + (char) LONGS[i] + (short) LONGS[i]);
        }
    }
}
