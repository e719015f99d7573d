public class Arrays {
    public static void main(String[] args) {
        int[] ints = new int[1000];
        long[] longs = new long[1000];
        byte[] bytes = new byte[1000];
        char[] chars = new char[1000];
        int sum = 0;
        for (int round = 0; round < 6000; round++) {
            for (int i = 0; i < ints.length; i++) {
                ints[i] = ints[i] + i;
                longs[i] = longs[i] + ints[i];
                bytes[i] = (byte) (bytes[i] + round);
                chars[i] = (char) (chars[i] + bytes[i]);
                sum = sum + chars[i];
            }
        }
        System.out.println(sum + ints[999] + (int) longs[999]);
    }
}
