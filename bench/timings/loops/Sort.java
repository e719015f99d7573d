public class Sort {
    static void fill(int[] all, int seed) {
        for (int i = 0; i < all.length; i++) {
            seed = seed * 1103515245 + 12345;
            all[i] = seed >> 8;
        }
    }

    static void quick(int[] all, int from, int to) {
        while (from < to) {
            int pivot = all[from + to >>> 1];
            int low = from;
            int high = to;
            while (low <= high) {
                while (all[low] < pivot) {
                    low++;
                }
                while (all[high] > pivot) {
                    high--;
                }
                if (low <= high) {
                    int kept = all[low];
                    all[low++] = all[high];
                    all[high--] = kept;
                }
            }
            quick(all, from, high);
            from = low;
        }
    }

    public static void main(String[] args) {
        int[] all = new int[20000];
        int sum = 0;
        for (int round = 1; round <= 30; round++) {
            fill(all, round);
            quick(all, 0, all.length - 1);
            for (int i = 1; i < all.length; i++) {
                if (all[i - 1] > all[i]) {
                    sum = -1;
                }
            }
            sum = sum * 31 + all[5000];
        }
        System.out.println(sum);
    }
}
