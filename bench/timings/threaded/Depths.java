/** Each loop reads a static field below so many calls: by threads each read is a commit. */
class Depth {
    static int field = 1;

    static int below(int calls, int rounds) {
        if (calls > 0) {
            return below(calls - 1, rounds);
        }
        int sum = 0;
        do {
            sum = sum + field;
            rounds--;
        } while (rounds != 0);
        return sum;
    }
}

class Depth3 {
    public static void main(String[] args) {
        System.out.println(Depth.below(3, 100000));
    }
}

class Depth30 {
    public static void main(String[] args) {
        System.out.println(Depth.below(30, 100000));
    }
}

class Depth3000 {
    public static void main(String[] args) {
        System.out.println(Depth.below(3000, 2000));
    }
}
