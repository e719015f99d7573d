public class Statics {
    static int sum;
    static int left;

    public static void main(String[] args) {
        int rounds = 700;
        do {
            left = 15000;
            do {
                sum = sum + left;
                left = left - 1;
            } while (left != 0);
            rounds--;
        } while (rounds != 0);
        System.out.println(sum);
    }
}
