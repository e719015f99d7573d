/** Arrays of all kinds that are made in loops, some under a monitor, and sizes that no array has. */
public class Main {
    static int made;

    static int[] ints(int size) {
        int[] row = new int[size];
        for (int i = 0; i < size; i++) row[i] = i;
        made++;
        return row;
    }

    static Object[] objects(int size) {
        Object[] row = new Object[size];
        if (size > 0) row[0] = row;
        return row;
    }

    static int[][] rows(int size) {
        int[][] rows = new int[size][];
        for (int i = 0; i < size; i++) rows[i] = new int[i];
        return rows;
    }

    static int numbers(int i) {
        byte[] bytes = new byte[i & 3];
        char[] chars = new char[3];
        short[] shorts = new short[1];
        long[] longs = new long[2];
        boolean[] booleans = new boolean[5];
        chars[2] = 'x';
        longs[1] = i;
        booleans[4] = true;
        int sum = bytes.length + chars[2] + chars[0] + shorts[0] + (int) longs[1] + (int) longs[0];
        if (booleans[4] && !booleans[3]) sum += booleans.length;
        return sum;
    }

    static int references(int i) {
        String[] texts = new String[2];
        int sum = objects(i & 3).length + rows(i & 3).length;
        if (texts[1] == null) sum++;
        synchronized (texts) {
            Object[] all = new Object[] {texts, texts};
            synchronized (all) {
                if (all[1] == texts && new int[4].length == 4) sum += 11;
            }
        }
        return sum;
    }

    static int refused(int i) {
        int sum = 0;
        try {
            sum += new int[i % 10 == 9 ? -1 : 1].length;
        } catch (NegativeArraySizeException none) {
            sum += 7;
        }
        try {
            Object[] few = new Object[i & 1];
            few[0] = few;
        } catch (ArrayIndexOutOfBoundsException none) {
            sum += 17;
        }
        try {
            Object[] texts = new String[1];
            texts[0] = new int[0];
        } catch (ArrayStoreException none) {
            sum += 5;
        }
        return sum;
    }

    public static void main(String[] args) {
        int sum = 0;
        for (int i = 0; i < 300; i++) {
            for (int item : ints(i & 7)) sum += item;
            sum = sum * 31 + numbers(i);
            sum = sum * 31 + references(i);
            sum = sum * 31 + refused(i);
            if (i % 50 == 0) System.out.println(sum);
        }
        System.out.println(sum);
        System.out.println(made);
    }
}
