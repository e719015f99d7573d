public class Prints {
    public static void main(String[] args) {
        int x = 1;
        for (int i = 0; i < 20000; i++) {
            x = x * 1103515245 + 12345;
            System.out.println(x);
        }
    }
}
