/** Prints what initializers leave that may run at build time, and what those leave that may not. */
class Point {
    int x;
    final long wide;
    Point next;

    Point(int x, long wide) {
        this.x = x;
        this.wide = wide;
    }

    int seven() {
        return 7;
    }

    int get() {
        return x;
    }
}

class Table {
    static final int[] SQUARES = new int[10];
    static final Point ORIGIN = new Point(3, 4L);
    static final Point[] POINTS = {ORIGIN, new Point(5, 6L)};
    static final String TEXT = new String[] {"a", "b"}[1];

    static {
        for (int i = 0; i < SQUARES.length; i++) {
            SQUARES[i] = i * i;
        }
    }
}

class Kept {
    static int[] kept = Table.SQUARES;
    static Point point = Table.ORIGIN;
}

class Casts {
    static Object object = Table.SQUARES;
    static int[] back = (int[]) object;
    static boolean is = object instanceof int[];
    static boolean isNot = object instanceof Point;
    static boolean isText = (Object) Table.TEXT instanceof String;
}

class Holds {
    static Point[] points = {null, Table.ORIGIN, new Point(8, 9L)};
    static final Point own = new Point(1, 2L);

    static {
        own.next = Table.ORIGIN;
        own.x = 20;
    }
}

class Compares {
    static boolean same = Table.SQUARES == Factory.pass(Table.SQUARES);
    static boolean other = Table.SQUARES == Factory.ints(10);
    static boolean twins = Factory.ints(2) == Factory.ints(2);
    static boolean texts = Table.TEXT == "b";
    static int seven = Table.ORIGIN.seven();
}

class Factory {
    static int[] ints(int count) {
        int[] made = new int[count];
        for (int i = 0; i < made.length; i++) {
            made[i] = count - i;
        }
        return made;
    }

    static <T> T pass(T given) {
        return given;
    }
}

class Ordered {
    static int sum;
    static int[] copy;

    static {
        int[] made = Factory.ints(5);
        for (int one : made) {
            sum += one;
        }
        copy = made.clone();
        copy[0] = -1;
        sum = sum * 10 + made[0];
    }
}

class Guarded {
    static int value;

    static {
        try {
            value = 6 / Factory.ints(3)[0];
        } catch (ArithmeticException e) {
            value = -1;
        } finally {
            value += 100;
        }
    }
}

class Tried {
    static int value;

    static {
        try {
            value = 6 / Factory.ints(3)[0];
        } catch (ArithmeticException e) {
            value = -1;
        }
    }
}

class Caught {
    static int zero;
    static int value;

    static {
        try {
            value = 6 / zero;
        } catch (ArithmeticException e) {
            value = -1;
        }
    }
}

class Above {
    static final int[] LIMITS = {1, 2, 3};
}

class Below extends Above {
    static int limit = LIMITS[1];
}

class Under extends Above {
    static Object limits = LIMITS;
}

class ReadsElement {
    static int four = Table.SQUARES[2];
}

class ReadsLength {
    static int ten = Table.SQUARES.length;
}

class ReadsField {
    static int three = Table.ORIGIN.get();
}

class WritesElement {
    static int done;

    static {
        Table.SQUARES[0] = 77;
        done = 1;
    }
}

class Copies {
    static int[] copy = Table.SQUARES.clone();
}

enum Color {
    RED, GREEN, BLUE;

    static final Color FIRST = values()[0];
}

class Switches {
    static int of(Color color) {
        switch (color) {
            case RED:
                return 1;
            case GREEN:
                return 2;
            default:
                return 3;
        }
    }
}

class NamesColor {
    static String name = Color.GREEN.name();
}

public class Main {
    static void say(boolean one) {
        System.out.println(one);
    }

    static void say(int one) {
        System.out.println(one);
    }

    public static void main(String[] args) {
        say(Kept.kept == Table.SQUARES);
        say(Kept.point.x);
        say(Casts.back[3]);
        say(Casts.is);
        say(Casts.isNot);
        say(Casts.isText);
        say(Holds.points[1].x);
        say(Holds.points[2].x);
        say(Holds.own.next.x);
        say(Holds.own.x);
        say(Compares.same);
        say(Compares.other);
        say(Compares.twins);
        say(Compares.texts);
        say(Compares.seven);
        say(Ordered.sum);
        say(Ordered.copy[0]);
        say(Ordered.copy[4]);
        say(Guarded.value);
        say(Tried.value);
        say(Caught.value);
        say(Below.limit);
        say(Under.limits == Above.LIMITS);
        say(ReadsElement.four);
        say(ReadsLength.ten);
        say(ReadsField.three);
        say(WritesElement.done);
        say(Table.SQUARES[0]);
        say(Copies.copy[0]);
        say(Switches.of(Color.GREEN));
        System.out.println(NamesColor.name);
        say(Color.FIRST.ordinal());
    }
}
