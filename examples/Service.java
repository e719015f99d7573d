enum Verb { GET, PUT, DELETE }

class Routes {
    static final int[] HASHES = new int[1000];
    static final Verb[] VERBS = new Verb[1000];

    static {
        for (int i = 0; i < HASHES.length; i++) {
            HASHES[i] = i * 31 ^ i >>> 3;
            VERBS[i] = i % 3 == 0 ? Verb.PUT : Verb.GET;
        }
    }
}

class Log {
    static int lines;

    static {
        System.out.println("log opened");
    }

    static void line(int n) {
        lines++;
        System.out.println(n);
    }
}

public class Service {
    public static void main(String[] args) {
        int sum = 0;
        for (int hash : Routes.HASHES) {
            sum += hash;
        }
        Log.line(sum);
        Log.line(Routes.VERBS[6].ordinal());
    }
}
