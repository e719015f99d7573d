public class Matrix {
    static int[][] matrix(int size, int seed) {
        int[][] rows = new int[size][];
        for (int i = 0; i < size; i++) {
            rows[i] = new int[size];
            for (int j = 0; j < size; j++) {
                rows[i][j] = seed * i ^ j;
            }
        }
        return rows;
    }

    static int[][] product(int[][] a, int[][] b) {
        int[][] rows = matrix(a.length, 0);
        for (int i = 0; i < a.length; i++) {
            for (int j = 0; j < a.length; j++) {
                int sum = 0;
                for (int k = 0; k < a.length; k++) {
                    sum += a[i][k] * b[k][j];
                }
                rows[i][j] = sum;
            }
        }
        return rows;
    }

    public static void main(String[] args) {
        int[][] a = matrix(200, 3);
        int[][] b = product(a, matrix(200, 5));
        System.out.println(product(b, a)[80][81]);
    }
}
