public class Exceptions {
    static int quotient(int a, int b) {
        return a / b;
    }

    static int element(int[] all, int i) {
        if (i == 0) {
            throw new IllegalMonitorStateException();
        }
        return all[i];
    }

    static int both(int[] all, int i) {
        return quotient(i, i & 3) + element(all, i % 5);
    }

    public static void main(String[] args) {
        int[] all = {1, 2, 3, 4};
        int sum = 0;
        for (int i = 0; i < 200000; i++) {
            try {
                sum = sum + both(all, i);
            } catch (ArithmeticException caught) {
                sum = sum + 1;
            } catch (IndexOutOfBoundsException caught) {
                sum = sum + 2;
            } catch (RuntimeException caught) {
                sum = sum + 3;
            }
        }
        System.out.println(sum);
    }
}
