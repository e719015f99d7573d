public class Objects {
    final int value;
    final Objects next;

    Objects(int value, Objects next) {
        this.value = value;
        this.next = next;
    }

    public static void main(String[] args) {
        int sum = 0;
        for (int round = 0; round < 100000; round++) {
            Objects list = null;
            for (int i = 0; i < 10; i++) {
                list = new Objects(round ^ i, list);
            }
            while (list != null) {
                sum = sum + list.value;
                list = list.next;
            }
        }
        System.out.println(sum);
    }
}
