public class Fields {
    int count;
    long total;
    byte last;
    Fields next;

    public static void main(String[] args) {
        Fields first = new Fields();
        first.next = new Fields();
        first.next.next = first;
        Fields at = first;
        for (int i = 0; i < 10000000; i++) {
            at.count = at.count + i;
            at.total = at.total + at.count;
            at.last = (byte) (at.last + 1);
            at = at.next;
        }
        System.out.println(first.count + first.next.last + (int) first.total);
    }
}
