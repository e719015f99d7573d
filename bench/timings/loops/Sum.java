public class Sum {
    public static void main(String[] args) {
        int sum = 0;
        int rounds = 1500;
        do {
            int i = 30000;
            do {
                sum = sum + i;
                i--;
            } while (i != 0);
            rounds--;
        } while (rounds != 0);
        System.out.println(sum);
    }
}
