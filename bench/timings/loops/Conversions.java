public class Conversions {
    public static void main(String[] args) {
        int x = 1;
        long y = 0;
        for (int i = 0; i < 10000000; i++) {
            y = y + x;
            x = (int) (y * 31L) + i;
            x = (byte) x + (char) (x >> 5) - (short) (x >>> 3);
        }
        System.out.println(x);
    }
}
