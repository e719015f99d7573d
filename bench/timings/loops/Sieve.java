public class Sieve {
    public static void main(String[] args) {
        int sum = 0;
        for (int round = 0; round < 30; round++) {
            boolean[] composite = new boolean[200000];
            for (int i = 2; i < composite.length; i++) {
                if (!composite[i]) {
                    sum++;
                    for (int j = i + i; j < composite.length; j += i) {
                        composite[j] = true;
                    }
                }
            }
        }
        System.out.println(sum);
    }
}
