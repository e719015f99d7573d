interface InterfaceCallsStep {
    int step(int i);

    default int twice(int i) {
        return i + i;
    }
}

public class InterfaceCalls implements InterfaceCallsStep {
    int state;

    public int step(int i) {
        state = state + i;
        return state;
    }

    public static void main(String[] args) {
        InterfaceCallsStep[] all = {new InterfaceCalls(), new InterfaceCalls(), new InterfaceCalls()};
        int at = 0;
        int sum = 0;
        for (int i = 0; i < 3000000; i++) {
            sum = sum ^ all[at].twice(all[at].step(i));
            at = at == 2 ? 0 : at + 1;
        }
        System.out.println(sum);
    }
}
