public class Calls {
    static int step(int x, int i) {
        return x + half(i);
    }

    static int half(int i) {
        return i >> 1;
    }

    static long wide(long x, int y) {
        return x ^ y;
    }

    public static void main(String[] args) {
        int x = 1;
        long y = 0;
        for (int i = 0; i < 3000000; i++) {
            x = step(x, i);
            y = wide(y, x);
        }
        System.out.println(x + (int) y);
    }
}
