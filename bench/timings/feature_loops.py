"""Loops of ordinary Java, one for each feature, which `bench/timings/features` compiles and times.

A group is a table of loops by name: what its class declares, what stands before the loop, the body of a round, and what
is printed at the end, or else `sum`. `Self` is its class; a round has `sum`, an int, `i`, its number, and `rounds`, how
many there are, which `Rounds.count()` answers.
"""
from typing import NamedTuple


class Feature(NamedTuple):
    """A loop with its name and group."""
    name: str
    group: str
    declarations: str
    init: str
    body: str
    printed: str = "sum"

    def source(self):
        """The text of its class."""
        text = (f"public class Self {{\n  {self.declarations}\n  public static void main(String[] words) {{\n"
                f"    int sum = 0, rounds = Rounds.count();\n    {self.init}\n"
                f"    for (int i = 0; i < rounds; i++) {{\n      {self.body}\n    }}\n"
                f"    System.out.println({self.printed});\n  }}\n}}\n")
        return text.replace("Self", self.name)


def joined(text, count, between=" "):
    """So many copies of a text, in which `#` is the number of each."""
    return between.join(text.replace("#", str(number)) for number in range(count))


def deep(kind, pairs):
    """An expression of an int or a long with so many pairs of operands on the stack."""
    return f"{kind} = " + "part + (i ^ (" * pairs + kind + "))" * pairs + ";"


SHAPES = ("interface Upper { } interface Lower extends Upper { } static class First implements Upper { }"
          " static class Second extends First { } static class Third extends Second implements Lower { }")
BELOW = ("static class C0 { int field; int get() { return field; } } "
         + " ".join(f"static class C{n} extends C{n - 1} {{ int own{n}; }}" for n in range(1, 21)))
BOX = "static class Box<T> { T item; T get() { return item; } void set(T next) { item = next; } }"
LIST = ("static class Row<T> { Object[] items = new Object[16]; int count; void add(T item) {"
        " items[count++ & 15] = item; } T get(int at) { return (T) items[at & 15]; } }")
SHADES = "enum Shade { LIGHT, GREY, DARK, BLACK }"
FAILURE = "static class Failure extends RuntimeException { int code; Failure(int code) { this.code = code; } }"
REST = joined("sum += i; sum ^= 3; sum = sum - step;", 12)
LONG_BODY = joined("sum = (sum + left) ^ #; left = right + i; right = sum - left;", 100)

NUMBERS = {
    "IntArithmetic": ("", "int left = 7, right = 3;",
                      "left = left * 31 + i; right = (left & i) | (right ^ 5); sum += -left; sum -= right;"
                      " sum ^= ~left;"),
    "IntShifts": ("", "int bits = 7;",
                  "bits = (bits << 3) ^ (i >> 2) ^ (bits >>> 5); sum += bits << (i & 15); sum ^= bits >>> i;"),
    "IntDivision": ("", "int part = 7;",
                    "part = (i + 5) / 3; sum += part % 7; sum += i / (part + 1); sum ^= i % (part + 3);"),
    "LongArithmetic": ("", "long left = 7, right = 3, all = 0;",
                       "left = left * 31 + i; right = (left & i) | (right ^ 5); all += -left; all -= right;"
                       " all ^= ~left;",
                       "all"),
    "LongDivision": ("", "long part = 7, all = 0;",
                     "part = (part + i + 5) / 3; all += part % 7; all += i / (part + 1); all ^= i % (part + 3);",
                     "all"),
    "LongComparisons": ("", "long low = 7, high = 900000;",
                        "low += 1; if (low < high) sum++; if (low == high) sum += 2; if (low >= high) sum += 3;"
                        " if (low != i) sum ^= 1;"),
    "Conversions": ("", "long wide = 5;",
                    "sum += (byte) i; sum ^= (char) (i * 3); sum += (short) (sum + i); wide += i; sum += (int) wide;"),
    "BigConstants": ("", "long wide = 5;",
                     "sum += 100000; sum ^= 32000; wide += 5000000000L; wide ^= 1L; sum += 77777777;", "sum + wide"),
    "Booleans": ("", "boolean yes = true, no = false;",
                 "yes = yes & no | i > 5; no = !yes ^ no; boolean both = yes && no || i < 3; if (both) sum++;"),
}

LOCALS = {
    "WideLocals": ("", joined("int v# = #;", 300),
                   "v290 += i; v291 ^= v290; v292 = v291 + v290; v293 += 5; sum += v293;"),
    "WideMethod": ("static int wide(int from) { " + joined("int v# = from;", 300) + " return v299; }", "",
                   "sum += wide(i);"),
    "ReferenceLocals": ("", "Object one = new Object(), two = new Object(), kept = one;",
                        "kept = one; one = two; two = kept; if (one == two) sum++; sum++;"),
}

# What comes between the operands of an expression, and copies them.
STACK = {
    "IntFieldIncrements": ("int first, second;", "Self it = new Self();",
                           "sum += it.first++; sum ^= it.first = it.second = i;"),
    "IntElementIncrements": ("", "int[] row = new int[8], other = new int[8];",
                             "sum += row[i & 7]++; sum ^= row[i & 7] = other[i & 7] = i;"),
    "LongFieldIncrements": ("long first, second;", "Self it = new Self(); long all = 0;",
                            "all += it.first++; all ^= it.first = it.second = i;", "all"),
    "LongElementIncrements": ("", "long[] row = new long[8], other = new long[8]; long all = 0;",
                              "all += row[i & 7]++; all ^= row[i & 7] = other[i & 7] = i;", "all"),
    "CompoundElements": ("", "int[] row = new int[8];", "row[i & 7] += i; row[(i + 1) & 7] ^= i; row[i & 3] <<= 1;",
                         "row[3]"),
    "LongChain": ("static long first, second;", "", "first = second = i;", "first"),
    "DroppedResults": ("static int one(int it) { return it; } static long two(long it) { return it; }", "",
                       "one(i); two(i); one(3); two(4L);"),
    "OperandsDeep100": ("", "int part = 3;", deep("sum", 50)),
}

# Plain instructions, behind one thing that has no step of its own, or has it not everywhere.
BEHIND = {
    "BehindNothing": ("", "int step = 5;", REST),
    "BehindLongField": ("long field;", "Self it = new Self(); long was = 0; int step = 5;",
                        "was = it.field++; " + REST),
    "BehindElement": ("", "int[] row = new int[8]; int was = 0, step = 5;", "was = row[1]++; " + REST),
    "BehindDroppedLong": ("static long same(long it) { return it; }", "int step = 5;", "same(4L); " + REST),
    "BehindInstanceof": ("", "Object it = new Object(); int step = 5;", "if (it instanceof Self) sum++; " + REST),
    "BehindText": ("", "String text = null; int step = 5;", 'text = "abc"; ' + REST),
    "BehindMonitor": ("", "Object lock = new Object(); int step = 5;", "synchronized (lock) { " + REST + " }"),
}

FLOW = {
    "Switch500": ("", "", "switch (i % 500) { " + joined("case #: sum += # * 7; break;", 500) + " default: sum--; }"),
    "SparseSwitch": ("", "", "switch (i & 15) { " + joined("case # * 100003 & 0xfffff: sum += #; break;", 10)
                     + " case 15: sum += 3; break; default: sum--; }"),
    "Ternaries": ("", "",
                  "int part = i > 500 ? (i & 1) == 0 ? 3 : 4 : i < 100 ? 5 : 6; sum += part > 3 ? part : -part;"),
    "LabeledLoops": ("", "",
                     "outer: for (int a = 0; a < 3; a++) { for (int b = 0; b < 3; b++) { if (b == 2) continue outer;"
                     " if (a == 2) break outer; sum += a + b; } }"),
    "NestedLoops": ("", "",
                    "for (int a = 0; a < 2; a++) for (int b = 0; b < 3; b++) for (int c = 0; c < 4; c++)"
                    " sum += a ^ b ^ c;"),
    "TryThatThrowsNothing": ("", "int[] row = {3, 4};",
                             "try { sum += row[i & 1]; } catch (IndexOutOfBoundsException raised) { sum--; }"),
    "Finally": ("static int of(int it) { try { try { return it; } finally { it++; } } finally { it--; } }", "",
                "sum += of(i);"),
    "FinallyInLoop": ("", "",
                      "for (int k = 0; k < 3; k++) { try { if (k == 1) continue; sum += k; } finally { sum ^= i; } }"),
    "LongMethod": ("static int all(int sum, int i) { int left = 1, right = 2; " + LONG_BODY + " return sum; }", "",
                   "sum = all(sum, i);"),
    "ManyMethods": (joined("static int m#(int it) { return it + #; }", 500), "", joined("sum = m#(sum);", 500)),
}

FIELDS = {
    "BooleanField": ("boolean field, other;", "Self it = new Self();",
                     "it.field = (i & 1) == 0; if (it.field) sum++; it.other = !it.field;"),
    "IntField": ("int field, other;", "Self it = new Self();", "it.field = i; sum += it.field; it.other = it.field;"),
    "LongField": ("long field, other;", "Self it = new Self();",
                  "it.field = i; sum += (int) it.field; it.other = it.field;"),
    "ReferenceField": ("Object field, other;", "Self it = new Self(); Object one = new Object();",
                       "it.field = one; if (it.field == one) sum++; it.other = it.field;"),
    "Statics": ("static int field, other; static long wide;", "", "field = i; wide += field; other ^= field;",
                "wide + other"),
    "ReferenceStatics": ("static Object field, other;", "Object one = new Object();",
                         "field = one; if (field == one) sum++; other = field;"),
    "Field20Up": (BELOW, "C20 it = new C20();", "it.field += i; sum += it.field; it.field = sum ^ i;"),
    "FieldOfManyClasses": (BELOW, "C0[] row = {new C0(), new C1(), new C2(), new C5()};",
                           "row[i & 3].field += i; sum += row[i & 3].field;"),
    "InheritedStatics": ("static class Top { static int field; } static class Middle extends Top { }"
                         " static class Low extends Middle { }", "", "Low.field += i; sum += Low.field;"),
    "StaticsOfInterface": ("interface Table { int[] ROW = {1, 2, 3, 4}; int COUNT = ROW.length; }", "",
                           "sum += Table.ROW[i & 3] + Table.COUNT;"),
    "LazySingleton": ("static class One { static One one; int all; static One get() { if (one == null) one = new One();"
                      " return one; } int add(int it) { all += it; return all; } }", "", "sum += One.get().add(i);"),
    "PrivateOfNested": ("static class Held { private int it; private int get() { return it; } private static int all;"
                        " }", "Held held = new Held();",
                        "held.it += i; sum += held.it; held.it++; sum += held.get(); Held.all ^= i;"),
    "InnerClass": ("int all; class Inner { int own; int add(int it) { all += it; own ^= all; return own; } }"
                   " Inner inner() { return new Inner(); }", "Inner it = new Self().inner();", "sum += it.add(i);"),
    "Captured": ("interface Adder { int add(int it); }",
                 "final int mask = 5; final int[] box = {0}; Adder adder = new Adder() { public int add(int it) {"
                 " box[0] += it; return box[0] ^ mask; } };", "sum += adder.add(i);"),
    "FieldChain": ("static class Node { Node next; int own; }",
                   "Node it = new Node(); it.next = new Node(); it.next.next = new Node(); it.next.next.next = it;",
                   "sum += it.next.next.next.own; it.next.next.own += i;"),
}

ARRAYS = {
    "Bytes": ("", "byte[] row = new byte[4];",
              "row[i & 3] = (byte) i; sum += row[i & 3]; row[(i + 1) & 3] += row[i & 3];"),
    "Chars": ("", "char[] row = new char[4];",
              "row[i & 3] = (char) i; sum += row[i & 3]; row[(i + 1) & 3] += row[i & 3];"),
    "Ints": ("", "int[] row = new int[4];", "row[i & 3] = i; sum += row[i & 3]; row[(i + 1) & 3] += row[i & 3];"),
    "Longs": ("", "long[] row = new long[4];",
              "row[i & 3] = i; sum += (int) row[i & 3]; row[(i + 1) & 3] += row[i & 3];"),
    "References": ("", 'Object one = new Object(); Object[] row = {one, one, "text", null};',
                   "if (row[i & 3] == one) sum++; if (row[(i + 1) & 3] != null) sum += 2;"),
    "NewInts": ("", "int[] row = null;", "row = new int[10]; row[3] = i; sum += row.length;"),
    "NewReferences": ("", "Self[] row = null;", "row = new Self[10]; sum += row.length;"),
    "NewRows": ("", "int[][] rows = null;",
                "rows = new int[4][]; for (int k = 0; k < 4; k++) rows[k] = new int[4]; sum += rows[i & 3][1];"),
    "NewThousand": ("", "int[] row = null;", "row = new int[1000]; row[3] = i; sum += row.length;"),
    "ArrayLiteral": ("", "int[] row = null;", "row = new int[] {i, 2, 3, 4, 5, 6, 7, 8}; sum += row[i & 7];"),
    "LargeLiteral": ("static int[] table() { return new int[] {" + joined("#", 1000, ", ") + "}; }", "",
                     "sum += table()[i % 1000];"),
    "TwoDimensions": ("", "int[][] rows = {{1, 2, 3, 4}, {5, 6, 7, 8}, {9, 8, 7, 6}, {5, 4, 3, 2}};",
                      "rows[i & 3][(i >> 2) & 3] += i; sum += rows[(i >> 1) & 3][i & 3];"),
    "CloneOfInts": ("", "int[] row = {1, 2, 3, 4};", "int[] other = row.clone(); other[1] = i; sum += other[i & 3];"),
    "CloneOfReferences": ("", "Self[] row = new Self[4];", "Self[] other = row.clone(); sum += other.length;"),
    "ForEachText": ("", 'String[] row = {"a", "b", "c"};', 'for (String it : row) if (it == "b") sum++;'),
}


def stored(array, item, declarations=SHAPES):
    """A loop that stores an item twice."""
    return declarations, f"{array}; {item};", "row[i & 3] = it; row[(i + 1) & 3] = it; sum++;"


STORES = {
    "StoreObject": stored("Object[] row = new Object[4]", "Object it = new Object()"),
    "StoreOwn": stored("First[] row = new First[4]", "First it = new First()"),
    "StoreFromBelow": stored("First[] row = new First[4]", "First it = new Third()"),
    "StoreInterface": stored("Upper[] row = new Upper[4]", "Upper it = new First()"),
    "StoreNull": stored("Upper[] row = new Upper[4]", "Upper it = null"),
    "StoreText": stored("String[] row = new String[4]", 'String it = "text"'),
    "StoreArray": stored("int[][] row = new int[4][]", "int[] it = new int[1]"),
    "StoreInArrayOfBelow": stored("First[] row = new Second[4]", "First it = new Second()"),
    "StoreInList": (LIST, "Row<Self> row = new Row<>(); Self it = new Self();",
                    "row.add(it); if (row.get(0) == it) sum++;"),
}


def asked(kind, item, declarations=SHAPES):
    """A loop that asks twice what an object is."""
    body = f"if (it instanceof {kind}) sum++; if (it instanceof {kind}) sum += 2; sum++;"
    return declarations, f"Object it = {item};", body


def cast(kind, item):
    """A loop that casts twice."""
    body = f"as = ({kind}) it; if (as != null) sum++; as = ({kind}) it;"
    return SHAPES, f"Object it = {item}; {kind} as = null;", body


CASTS = {
    "InstanceofOwn": asked("Second", "new Second()"),
    "InstanceofAbove": asked("First", "new Third()"),
    "InstanceofInterface": asked("Upper", "new First()"),
    "InstanceofText": asked("String", '"text"'),
    "InstanceofArrayOfInterface": asked("Upper[]", "new First[2]"),
    "InstanceofNull": asked("First", "null"),
    "InstanceofNot": asked("Second", "new First()"),
    "InstanceofNotInterface": asked("Lower", "new Second()"),
    "Instanceof20Up": asked("C0", "new C20()", BELOW),
    "InstanceofChain": ("interface Shape { } " + joined("static class S# implements Shape { int own = #; }", 8),
                        "Shape[] row = {" + joined("new S#()", 8, ", ") + "};", "Object it = row[i & 7]; "
                        + joined("if (it instanceof S#) sum += ((S#) it).own;", 8, " else ")),
    "CastToOwn": cast("Second", "new Second()"),
    "CastToInterface": cast("Upper", "new First()"),
    "CastToText": cast("String", '"text"'),
    "CastToArray": cast("int[]", "new int[2]"),
    "GenericBox": (BOX, "Box<Self> box = new Box<>(); Self it = new Self(); box.set(it);",
                   "Self got = box.get(); box.set(got); if (got == it) sum++;"),
    "GenericBoxOfInterface": (BOX + " interface Shape { } static class Round implements Shape { }",
                              "Box<Shape> box = new Box<>(); Shape it = new Round(); box.set(it);",
                              "Shape got = box.get(); box.set(got); if (got == it) sum++;"),
    "Bridge": ("interface Order<T> { int compare(T left, T right); } static class Item { int own; }"
               " static class ByOwn implements Order<Item> { public int compare(Item left, Item right) {"
               " return left.own - right.own; } }",
               "Order<Item> order = new ByOwn(); Item one = new Item(), two = new Item(); one.own = 4;",
               "sum += order.compare(one, two);"),
}


def receivers(count, kind):
    """A loop that calls a method of so many classes below one."""
    top = ("interface Top { int of(int it); } " if kind == "implements" else
           "static abstract class Top { public abstract int of(int it); } ")
    return (top + joined(f"static class S# {kind} Top {{ public int of(int it) {{ return it + #; }} }}", count),
            "Top[] row = {" + joined("new S#()", count, ", ") + "}; int at = 0;",
            f"sum += row[at].of(i); at = at == {count - 1} ? 0 : at + 1;")


CALLS = {
    "StaticCalls": ("static int next(int it) { return it + 1; }", "", "sum = next(sum); sum ^= next(i);"),
    "SuperCalls": ("static class Top { int of(int it) { return it; } } static class Middle extends Top {"
                   " int of(int it) { return super.of(it) + 1; } } static class Low extends Middle { int of(int it) {"
                   " return super.of(it) + 2; } }", "Top top = new Low();", "sum += top.of(i);"),
    "VirtualCallsOf4": receivers(4, "extends"),
    "VirtualCallsOf100": receivers(100, "extends"),
    "InterfaceCallsOf4": receivers(4, "implements"),
    "InterfaceCallsOf100": receivers(100, "implements"),
    "Inherited20Up": (BELOW, "C20 it = new C20();", "it.field = i; sum += it.get();"),
    "DefaultCalls": ("interface Next { default int next(int it) { return it + 1; } }"
                     " static class Plain implements Next { }",
                     "Next next = new Plain();", "sum += next.next(i); sum ^= next.next(i);"),
    "DefaultCallsOf16": ("interface Next { default int next(int it) { return it + 1; } } "
                         + joined("static class S# implements Next { }", 16),
                         "Next[] row = {" + joined("new S#()", 16, ", ") + "};", "sum += row[i & 15].next(i);"),
    "DefaultSuper": ("interface Next { default int next(int it) { return it + 1; } }"
                     " static class Twice implements Next { public int next(int it) { return Next.super.next(it) * 2; }"
                     " }", "Next next = new Twice();", "sum += next.next(i);"),
    "StaticsInInterface": ("interface Next { static int next(int it) { return it + 1; } }", "",
                           "sum += Next.next(i); sum ^= Next.next(sum);"),
    "Recursion10000": ("static int down(int left) { return left == 0 ? 0 : down(left - 1) + 1; }", "",
                       "sum += down(10000);"),
    "Parameters200": ("static int of(" + joined("int p#", 200, ", ") + ") { return p0 + p199; }", "",
                      "sum += of(" + joined("i", 200, ", ") + ");"),
    "MixedParameters": ("static int of(byte a, char b, short c, long d, Object e, boolean f, String g, int[] h) {"
                        " return a + b + c + (int) d + h[0]; }", "int[] row = {3}; Object one = row;",
                        "sum += of((byte) 3, 'x', (short) i, i, one, true, \"text\", row);"),
    "NarrowReturns": ("static byte small(int it) { return (byte) it; } static char letter(int it) { return (char) it; }"
                      " static boolean yes(int it) { return it > 5; }", "",
                      "sum += small(i); sum += letter(i); if (yes(i)) sum++;"),
    "VariableObjects": ("static int of(Object... row) { return row.length; }", "Object one = new Object();",
                        "sum += of(one, one, one);"),
    "MethodChain": ("int own; Self add(int it) { own += it; return this; } Self times(int it) { own *= it; return this;"
                    " }", "Self it = new Self();", "it.add(i).times(3).add(1); sum += it.own;"),
}

OBJECTS = {
    "NewObject": ("", "Object it = null;", "it = new Object(); if (it != null) sum++;"),
    "NewOfOneField": ("int own;", "Self it = null;", "it = new Self(); it.own = i; sum += it.own;"),
    "NewOf10Fields": (joined("int f#;", 10), "Self it = null;", "it = new Self(); it.f9 = i; sum += it.f9;"),
    "NewWithFieldValues": ('int own = 5; long wide = 7; String text = "text"; int[] row; Self(int it) { own += it; }',
                           "Self it = null;", "it = new Self(i); sum += it.own;"),
    "Constructors5Up": ("static class K0 { int own; K0(int it) { own = it; } } "
                        + " ".join(f"static class K{n} extends K{n - 1} {{ int own{n}; K{n}(int it) {{ super(it);"
                                   f" own{n} = it; }} }}" for n in range(1, 6)),
                        "K5 it = null;", "it = new K5(i); sum += it.own;"),
    "NewAnonymous": ("interface Held { int get(); }", "",
                     "final int kept = i; Held held = new Held() { public int get() { return kept; } };"
                     " sum += held.get();"),
    "Trees": ("static class Tree { Tree left, right; int own; } static Tree make(int depth) { Tree it = new Tree();"
              " it.own = depth; if (depth > 0) { it.left = make(depth - 1); it.right = make(depth - 1); } return it; }"
              " static int all(Tree it) { return it == null ? 0 : it.own + all(it.left) + all(it.right); }",
              "Tree tree = make(5);", "sum += all(tree);"),
}

ENUMS = {
    "EnumValues": (SHADES, "", "sum += Shade.values().length;"),
    "EnumOrdinal": (SHADES, "Shade it = Shade.DARK;", "sum += it.ordinal(); sum ^= Shade.GREY.ordinal();"),
    "EnumName": (SHADES, "Shade it = Shade.DARK;", 'if (it.name() == "DARK") sum++;'),
    "EnumComparison": (SHADES, "Shade it = Shade.DARK;",
                       "if (it == Shade.DARK) sum++; it = (i & 1) == 0 ? Shade.DARK : Shade.GREY;"),
    "EnumSwitch": (SHADES, "Shade[] row = Shade.values();",
                   "switch (row[i & 3]) { case LIGHT: sum++; break; case GREY: sum += 2; break; default: sum--; }"),
    "EnumFields": ("enum Coin { ONE(1), TWO(2); final int worth; Coin(int worth) { this.worth = worth; } int twice() {"
                   " return worth * 2; } }", "Coin it = Coin.TWO;", "sum += it.worth; sum ^= it.twice();"),
    "EnumBodies": ("enum Sign { PLUS { int of(int it) { return it; } }, MINUS { int of(int it) { return -it; } };"
                   " abstract int of(int it); }", "Sign[] row = {Sign.PLUS, Sign.MINUS};", "sum += row[i & 1].of(i);"),
}

TEXTS = {
    "TextConstants": ("", "String text = null;", 'text = "abc"; if (text == "abc") sum++;'),
    "TextFields": ("String field; static String common;", "Self it = new Self();",
                   'it.field = "one"; if (it.field == "one") sum++; common = it.field;'),
    "TextParameters": ("static String same(String it) { return it; }", 'String text = "text";',
                       "text = same(text); if (text != null) sum++;"),
    "SystemOut": ("", "java.io.PrintStream out = null;", "out = System.out; if (out != null) sum++;"),
    "PrintInt": ("", "", "System.out.print(i);"),
    "PrintText": ("", "", 'System.out.println("hello");'),
}

EXCEPTIONS = {
    "ThrowOwn": (FAILURE, "", "try { throw new Failure(i); } catch (Failure raised) { sum += raised.code; }"),
    "ThrowKept": ("", "RuntimeException kept = new RuntimeException();",
                  "try { throw kept; } catch (RuntimeException raised) { sum++; }"),
    "Throw10Up": (FAILURE + " static void down(int left) { if (left == 0) throw new Failure(3); down(left - 1); }", "",
                  "try { down(10); } catch (Failure raised) { sum += raised.code; }"),
    "ThrowThroughFinally": (FAILURE + " static int of(int it) { try { throw new Failure(it); } finally { it++; } }", "",
                            "try { sum += of(i); } catch (Failure raised) { sum++; }"),
    "CatchFourth": (FAILURE, "",
                    "try { throw new Failure(i); } catch (ArithmeticException raised) { sum--; }"
                    " catch (NullPointerException raised) { sum--; } catch (ClassCastException raised) { sum--; }"
                    " catch (Failure raised) { sum++; }"),
    "RaisedByNull": ("int own;", "Self none = null;",
                     "try { sum += none.own; } catch (NullPointerException raised) { sum++; }"),
    "RaisedByBounds": ("", "int[] row = {1};",
                       "try { sum += row[i + 1]; } catch (ArrayIndexOutOfBoundsException raised) { sum++; }"),
    "RaisedByCast": (SHAPES, "Object it = new First();",
                     "try { Second as = (Second) it; sum--; } catch (ClassCastException raised) { sum++; }"),
    "RaisedByCastToInterface": (SHAPES, "Object it = new First();",
                                "try { Lower as = (Lower) it; sum--; } catch (ClassCastException raised) { sum++; }"),
    "RaisedByStore": (SHAPES, "Object[] row = new First[1]; Object it = new Object();",
                      "try { row[0] = it; sum--; } catch (ArrayStoreException raised) { sum++; }"),
}

MONITORS = {
    "Synchronized": ("", "Object lock = new Object();", "synchronized (lock) { sum += i; }"),
    "SynchronizedAgain": ("", "Object lock = new Object();",
                          "synchronized (lock) { synchronized (lock) { sum += i; } }"),
    "SynchronizedOnThis": ("int own; int add(int it) { synchronized (this) { own += it; return own; } }",
                           "Self it = new Self();", "sum += it.add(i);"),
    "LoopInSynchronized": ("", "Object lock = new Object();",
                           "synchronized (lock) { for (int k = 0; k < 20; k++) sum += k ^ i; }"),
    "RecursionSynchronized": ("static Object[] locks = new Object[101]; static int down(int left) {"
                              " synchronized (locks[left]) { return left == 0 ? 0 : 1 + down(left - 1); } }",
                              "for (int k = 0; k < 101; k++) locks[k] = new Object();", "sum += down(100);"),
    "ThrowFromSynchronized": (FAILURE, "Object lock = new Object();",
                              "try { synchronized (lock) { throw new Failure(i); } }"
                              " catch (Failure raised) { sum++; }"),
}

# The loop stands in an initializer, and that of `main` ends at once.
INITIALIZERS = {
    "OwnInitializer": ("static int all; static { int sum = 0; for (int i = 0, rounds = Rounds.count(); i < rounds;"
                       " i++) { sum = sum * 31 + i; sum ^= i >> 3; } all = sum; }", "", "break;", "all"),
    "TableInInitializer": ("static int[] table = new int[1024]; static { for (int i = 0, rounds = Rounds.count();"
                           " i < rounds; i++) { table[i & 1023] += i; } }", "",
                           "break;", "table[5]"),
}

IDIOMS = {
    "Matrices": ("", "int[][] left = new int[10][], right = new int[10][], all = new int[10][];"
                 " for (int k = 0; k < 10; k++) { left[k] = new int[10]; right[k] = new int[10]; all[k] = new int[10];"
                 " for (int m = 0; m < 10; m++) { left[k][m] = k ^ m; right[k][m] = k + m; } }",
                 "for (int x = 0; x < 10; x++) for (int y = 0; y < 10; y++) { int part = 0;"
                 " for (int k = 0; k < 10; k++) part += left[x][k] * right[k][y]; all[x][y] = part; }"
                 " sum += all[i % 10][3];"),
    "GrowingList": ("static class Row { int[] items = new int[4]; int count; void add(int it) {"
                    " if (count == items.length) { int[] more = new int[count * 2]; for (int k = 0; k < count;"
                    " k++) more[k] = items[k]; items = more; } items[count++] = it; } int get(int at) {"
                    " return items[at]; } }", "Row row = new Row();",
                    "if (row.count == 1000) row = new Row(); row.add(i); sum += row.get(row.count >> 1);"),
    "Iterators": ("interface Numbers { boolean more(); int next(); } static class Range { int count = 10;"
                  " Numbers all() { return new Numbers() { int at = 0; public boolean more() { return at < count; }"
                  " public int next() { return at++; } }; } }", "Range range = new Range();",
                  "for (Numbers it = range.all(); it.more();) sum += it.next();"),
    "HashTable": ("static class Entry { int key; Object value; Entry next; Entry(int key, Object value, Entry next) {"
                  " this.key = key; this.value = value; this.next = next; } } static Entry[] table = new Entry[256];"
                  " static Object get(int key) { for (Entry it = table[key & 255]; it != null; it = it.next)"
                  " if (it.key == key) return it.value; return null; }",
                  "for (int k = 0; k < 500; k++) table[k & 255] = new Entry(k, table, table[k & 255]);",
                  "if (get(i % 700) != null) sum++;"),
    "ListOfInterface": (LIST + " interface Shape { int area(); } static class Square implements Shape { int side;"
                        " Square(int side) { this.side = side; } public int area() { return side * side; } }",
                        "Row<Shape> row = new Row<>(); Shape it = new Square(3);",
                        "row.add(it); sum += row.get(0).area();"),
    "SortByOrder": ("interface Order<T> { int compare(T left, T right); } static class Item { int own; Item(int own) {"
                    " this.own = own; } } static <T> void sort(T[] row, Order<T> order) { for (int at = 1;"
                    " at < row.length; at++) { T it = row[at]; int to = at - 1;"
                    " while (to >= 0 && order.compare(row[to], it) > 0) { row[to + 1] = row[to]; to--; }"
                    " row[to + 1] = it; } }",
                    "Order<Item> order = new Order<Item>() { public int compare(Item left, Item right) {"
                    " return left.own - right.own; } }; Item[] row = new Item[20];",
                    "for (int k = 0; k < 20; k++) row[k] = new Item((k * 7 + i) % 20); sort(row, order);"
                    " sum += row[3].own;"),
    "SearchTree": ("interface Key { int compare(Key other); } static class Number implements Key { int own;"
                   " Number(int own) { this.own = own; } public int compare(Key other) {"
                   " return own - ((Number) other).own; } } static class Node { Key key; Node left, right;"
                   " Node(Key key) { this.key = key; } } static Node put(Node node, Key key) {"
                   " if (node == null) return new Node(key); int order = key.compare(node.key);"
                   " if (order < 0) node.left = put(node.left, key); else if (order > 0) node.right = put(node.right,"
                   " key); return node; }",
                   "Node root = null; for (int k = 0; k < 200; k++) root = put(root, new Number(k * 37 % 200));"
                   " Key key = new Number(77);",
                   "Node node = root; while (node != null) { int order = key.compare(node.key); if (order == 0) {"
                   " sum++; break; } node = order < 0 ? node.left : node.right; }"),
    "StatesOfEnum": ("enum State { IDLE { State next(int it) { return (it & 1) == 0 ? BUSY : IDLE; } }, BUSY {"
                     " State next(int it) { return IDLE; } }; abstract State next(int it); }",
                     "State state = State.IDLE;", "state = state.next(i); if (state == State.BUSY) sum++;"),
    "EqualsOfOwn": ("static class Point { int x; Point(int x) { this.x = x; } boolean same(Object other) {"
                    " if (!(other instanceof Point)) return false; Point it = (Point) other; return it.x == x; } }",
                    "Point one = new Point(1), two = new Point(1);", "if (one.same(two)) sum++;"),
}

GROUPS = {"numbers": NUMBERS, "locals": LOCALS, "stack": STACK, "behind": BEHIND, "flow": FLOW, "fields": FIELDS,
          "arrays": ARRAYS, "stores": STORES, "casts": CASTS, "calls": CALLS, "objects": OBJECTS, "enums": ENUMS,
          "texts": TEXTS, "exceptions": EXCEPTIONS, "monitors": MONITORS, "initializers": INITIALIZERS,
          "idioms": IDIOMS}
FEATURES = [Feature(name, group, *parts) for group, loops in GROUPS.items() for name, parts in loops.items()]
