/** Prints what fields, arrays, casts and calls of every kind give. */
public class Main {
    static boolean z;
    static byte b;
    static short s;
    static char c;
    static int i;
    static long j;
    static String text;
    static int[] ints;

    interface Shape {
        int area();

        default int twice() {
            return 2 * area();
        }

        static int unit() {
            return 7;
        }
    }

    interface Named extends Shape {
        String name();

        default int twice() {
            return 3 * area();
        }
    }

    static class Base {
        boolean z;
        byte b;
        short s;
        char c;
        int i;
        long j;
        Object o;

        Base(int i) {
            this.i = i;
            fill(i);
        }

        void fill(int value) {
            z = (value & 1) != 0;
            b = (byte) value;
            s = (short) value;
            c = (char) value;
            j = (long) value * value;
            o = this;
        }

        int sum() {
            return (z ? 1 : 0) + b + s + c + i + (int) (j ^ j >>> 32) + (o == this ? 1 : 0) + own();
        }

        private int own() {
            return 1000;
        }
    }

    static class Square extends Base implements Named {
        int side;

        Square(int side) {
            super(side * 1000);
            this.side = side;
        }

        void fill(int value) {
            super.fill(value + side);
        }

        int sum() {
            return super.sum() + own();
        }

        private int own() {
            return 1;
        }

        public int area() {
            return side * side;
        }

        public String name() {
            return "square";
        }
    }

    static void statics() {
        for (int n = 0; n < 300; n += 37) {
            z ^= true;
            b += n;
            s -= n * n;
            c *= n + 1;
            i = i++ + ++i;
            j = j-- * 31 - n;
            c++;
            b--;
        }
        System.out.println(z);
        System.out.println(b);
        System.out.println(s);
        System.out.println((int) c);
        System.out.println(i);
        System.out.println(j);
        System.out.println(text);
        System.out.println(ints == null);
    }

    static int raised(int kind, Object[] all) {
        try {
            switch (kind) {
                case 0: return ((int[]) all[0])[3];
                case 1: return ((long[]) all[5])[0] == 0 ? 1 : 2;
                case 2: all[1] = new int[-1]; return 2;
                case 3: ((Object[]) all[2])[0] = all; return 3;
                case 4: return ((String[]) all[3]).length;
                case 5: return ((Square) all[4]).side;
                case 6: ((byte[]) all[6])[-1] = 1; return 6;
                case 7: all[9] = null; return 7;
                default: return ((Base) null).i;
            }
        } catch (ArrayIndexOutOfBoundsException raised) {
            return -1;
        } catch (ClassCastException raised) {
            return -2;
        } catch (NegativeArraySizeException raised) {
            return -3;
        } catch (ArrayStoreException raised) {
            return -4;
        } catch (NullPointerException raised) {
            return -5;
        }
    }

    static void arrays() {
        boolean[] zs = {true, false, true};
        byte[] bs = {1, -1, 127};
        char[] cs = {'a', 65535, 0};
        short[] ss = {-32768, 32767, 1};
        int[] is = {Integer.MIN_VALUE, 0, Integer.MAX_VALUE};
        long[] js = {Long.MIN_VALUE, 0, Long.MAX_VALUE};
        for (int n = 0; n < 3; n++) {
            zs[n] |= n == 1;
            bs[n] += 1;
            cs[n]--;
            ss[n] *= 3;
            is[n] = is[n] - bs[n];
            js[n] ^= is[n] + ss[n]++;
            System.out.print(zs[n]);
            System.out.print(bs[n] + cs[n] + ss[n]);
            System.out.print(' ');
            System.out.print(is[n]);
            System.out.print(' ');
            System.out.println(js[n]);
        }
        int[] copy = is.clone();
        copy[0] = 5;
        System.out.println(is[0] == copy[0] ? "same" : "other");
        Object[] all = {is, bs, new String[2], copy, new Base(3), js, bs, zs};
        for (int kind = 0; kind < 9; kind++) {
            System.out.println(raised(kind, all));
        }
        all[3] = new String[4];
        all[4] = new Square(2);
        System.out.println(raised(4, all) + raised(5, all));
    }

    static int known(Object value) {
        return (value instanceof Base ? 1 : 0) + (value instanceof Shape ? 2 : 0) + (value instanceof Named ? 4 : 0)
            + (value instanceof Square ? 8 : 0) + (value instanceof int[] ? 16 : 0) + (value instanceof Object[] ? 32 : 0)
            + (value instanceof Shape[] ? 64 : 0) + (value instanceof Base[][] ? 128 : 0) + (value != null ? 256 : 0);
    }

    public static void main(String[] args) {
        statics();
        arrays();
        Base[] bases = {new Base(70000), new Square(12), new Square(-9)};
        for (int n = 0; n < bases.length; n++) {
            System.out.println(bases[n].sum());
            bases[n].fill(-n);
            System.out.println(bases[n].sum());
        }
        Shape shape = (Shape) bases[1];
        Named named = (Square) bases[2];
        System.out.println(shape.twice() + named.twice() + shape.area() + Shape.unit());
        System.out.println(named.name());
        Object[] values = {null, bases[0], shape, args, bases, new Square[1], new Square[1][], new int[0], new int[1][], ""};
        for (int n = 0; n < values.length; n++) {
            System.out.println(known(values[n]));
        }
    }
}
