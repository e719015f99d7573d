public class Mixed {
    static int hits;

    public static void main(String[] args) {
        int a = 1;
        int b = 7;
        for (int i = 0; i < 3500; i++) {
            for (int j = 0; j < 3500; j++) {
                int c = a * 3 + b - j;
                b = a;
                a = c;
                if (c < 1000) {
                    hits++;
                } else {
                    a = a - i;
                }
            }
        }
        System.out.println(a + b + hits);
    }
}
