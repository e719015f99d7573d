/** Prints how exceptions go through frames, handlers and finally blocks. */
public class Main {
    static class Own extends RuntimeException {
        final int code;

        Own(int code) {
            super("dropped");
            this.code = code;
        }

        int code() {
            return code;
        }
    }

    static class Below extends Own {
        Below(int code) {
            super(code + 100);
        }

        int code() {
            return -code;
        }
    }

    static class Checked extends Exception {
    }

    static int depth;

    static int down(int n) {
        depth++;
        try {
            if (n == 0) {
                throw new Below(depth);
            }
            return down(n - 1) + 1;
        } finally {
            depth--;
        }
    }

    static int raise(int kind) throws Checked {
        switch (kind) {
            case 0: throw new Own(5);
            case 1: throw new Below(6);
            case 2: throw new Checked();
            case 3: return 1 / (kind - 3);
            case 5: throw null;
            case 6: throw new Error("an error");
            case 7: return (int) (5L % (kind - 7));
            default: return kind;
        }
    }

    static int caught(int kind) {
        int seen = 0;
        try {
            try {
                seen = raise(kind);
            } catch (Below raised) {
                seen = raised.code();
                throw raised;
            } catch (Own raised) {
                seen = raised.code();
            } finally {
                seen += 1000;
                System.out.print(seen);
                System.out.print(' ');
            }
            return seen;
        } catch (Checked raised) {
            return -1;
        } catch (ArithmeticException | NullPointerException raised) {
            return -2;
        } catch (RuntimeException raised) {
            return raised instanceof Own ? ((Own) raised).code() : -3;
        } catch (Throwable raised) {
            return -4;
        }
    }

    @SuppressWarnings("finally")
    static int covered(int n) {
        while (true) {
            try {
                if (n == 0) {
                    return 1;
                }
                if (n == 1) {
                    break;
                }
                n = n / (n - 2) - 1;
            } catch (ArithmeticException raised) {
                n = 0;
                continue;
            } finally {
                if (n == 1) {
                    return 70;
                }
                System.out.print(n);
                System.out.print(' ');
            }
        }
        return n;
    }

    public static void main(String[] args) {
        for (int kind = 0; kind < 9; kind++) {
            System.out.println(caught(kind));
        }
        for (int n = 0; n < 10; n++) {
            System.out.println(covered(n));
        }
        try {
            System.out.println(down(40));
        } catch (Own raised) {
            System.out.println(raised.code() + depth);
        }
        Own kept = new Below(1);
        try {
            throw kept;
        } catch (Own raised) {
            System.out.println(raised == kept);
        }
        throw new Below(9);
    }
}
