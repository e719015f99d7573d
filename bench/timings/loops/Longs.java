public class Longs {
    static long total;

    public static void main(String[] args) {
        long x = 88172645463325252L;
        for (int i = 0; i < 6000000; i++) {
            x = x ^ x << 13;
            x = x ^ x >>> 7;
            x = x ^ x << 17;
            total = total + x % 1000L - x / 7L;
            if (x > total) {
                total = -total & x;
            }
        }
        System.out.println((int) (total ^ total >>> 32));
    }
}
