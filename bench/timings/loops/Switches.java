public class Switches {
    public static void main(String[] args) {
        int x = 1;
        int sum = 0;
        for (int i = 0; i < 12000000; i++) {
            switch (i & 7) {
                case 0: x = x + 3; break;
                case 1: x = x * 5; break;
                case 2: x = x - i; break;
                case 3: x = x ^ 9; break;
                case 4: x = x + i; break;
                case 5: x = x - 1; break;
                default: x = x & 65535;
            }
            switch (x) {
                case -70000: sum = sum + 1; break;
                case 12: sum = sum + 2; break;
                case 4000: sum = sum + 3; break;
                case 65535: sum = sum + 4; break;
                default: sum = sum + x;
            }
        }
        System.out.println(sum);
    }
}
