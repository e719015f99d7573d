public class VirtualCalls {
    int state;

    int step(int i) {
        state = state + i;
        return twice(state);
    }

    int twice(int i) {
        return i + i;
    }

    public static void main(String[] args) {
        VirtualCalls[] all = {new VirtualCalls(), new VirtualCalls(), new VirtualCalls()};
        int at = 0;
        int sum = 0;
        for (int i = 0; i < 3000000; i++) {
            sum = sum ^ all[at].step(i);
            at = at == 2 ? 0 : at + 1;
        }
        System.out.println(sum);
    }
}
