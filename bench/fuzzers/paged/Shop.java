package shop;

enum Currency { EUR, USD, GBP, JPY }

enum Unit { PIECE, KILO, LITRE }

class Sizes {
    static final int ROWS = 64, COLUMNS = 16;
}

class Primes {
    static final int[] TABLE = new int[512];
    static final int LAST;
    static {
        int found = 0;
        for (int number = 2; found < TABLE.length; number++) {
            boolean isPrime = true;
            for (int i = 0; i < found && TABLE[i] * TABLE[i] <= number; i++) {
                if (number % TABLE[i] == 0) {
                    isPrime = false;
                    break;
                }
            }
            if (isPrime) {
                TABLE[found++] = number;
            }
        }
        LAST = TABLE[511];
    }
}

class Checksum {
    static final int[] CRC = new int[256];
    static final int WHOLE;
    static {
        for (int i = 0; i < 256; i++) {
            int crc = i;
            for (int bit = 0; bit < 8; bit++) {
                crc = (crc & 1) != 0 ? (crc >>> 1) ^ 0xEDB88320 : crc >>> 1;
            }
            CRC[i] = crc;
        }
        WHOLE = CRC[255];
    }
}

class Hashes {
    static final int[] SEEDS = new int[Sizes.ROWS];
    static final int FIRST;
    static {
        for (int i = 0; i < SEEDS.length; i++) {
            SEEDS[i] = i * Primes.LAST + Checksum.WHOLE;
        }
        FIRST = SEEDS[1];
    }
}

class Rates {
    static final int EURO = 100 + Currency.EUR.ordinal(), YEN = 160 + Currency.JPY.ordinal() + Primes.LAST % 10;
}

class Price {
    static final Price FREE = new Price(0, Currency.EUR);
    final int cents;
    final Currency currency;
    Price(int cents, Currency currency) {
        this.cents = cents;
        this.currency = currency;
    }
}

class Item {
    final String name;
    final Price price;
    final Unit unit;
    Item(String name, Price price, Unit unit) {
        this.name = name;
        this.price = price;
        this.unit = unit;
    }
}

class Catalogue {
    static final Item[] ITEMS = new Item[120];
    static {
        for (int i = 0; i < ITEMS.length; i++) {
            int cents = i * Rates.EURO + Rates.YEN;
            ITEMS[i] = new Item("item", new Price(cents, Currency.EUR), Unit.PIECE);
        }
    }
}

class Discounts {
    static final int[] BY_ITEM = new int[Catalogue.ITEMS.length];
    static {
        for (int i = 0; i < BY_ITEM.length; i++) {
            BY_ITEM[i] = i * Rates.YEN % 10;
        }
    }
}

class Index {
    static final int[] PLACES = new int[Sizes.ROWS * Sizes.COLUMNS];
    static {
        for (int i = 0; i < Catalogue.ITEMS.length; i++) {
            PLACES[(i * Hashes.FIRST & 1023)] = i;
        }
    }
}

class Letters {
    static final boolean[] IS_WORD = new boolean[128];
    static final int KIND;
    static {
        for (char c = 'a'; c <= 'z'; c++) {
            IS_WORD[c] = IS_WORD[c - 32] = true;
        }
        KIND = IS_WORD.length / 128;
    }
}

class Lexer {
    static final byte[] KINDS = new byte[128];
    static {
        for (int c = 0; c < 128; c++) {
            KINDS[c] = (byte) (c >= 'a' && c <= 'z' ? Letters.KIND : c >= '0' && c <= '9' ? 2 : 0);
        }
    }
}

class Parser {
    static final Lexer LEXER = new Lexer();
    static final int[][] STATES = new int[8][];
    static {
        for (int i = 0; i < 8; i++) {
            STATES[i] = new int[] {i, Lexer.KINDS.length, i + 1};
        }
    }
}

class Routes {
    static final String[] PATHS = {"/", "/items", "/basket", "/orders", "/pay"};
    static final int[] LENGTHS = new int[PATHS.length];
    static {
        for (int i = 0; i < PATHS.length; i++) {
            LENGTHS[i] = PATHS[i].length();
        }
    }
}

class Log {
    static final int LEVEL;
    static {
        System.out.println("log opened");
        LEVEL = 2;
    }
}

class Audit {
    static final int LEVEL = Log.LEVEL + 1;
}

class Basket {
    static final int MOST = Audit.LEVEL * 10;
}

class Orders {
    static final int MOST = Basket.MOST * 4;
}

class Mail {
    static final int QUEUE = Log.LEVEL * 8;
}

class Receipts {
    static final int LINES = Mail.QUEUE + 1;
}

class Clock {
    static int started;
    static synchronized void start() {
        started++;
    }
    static {
        start();
    }
}

class Sessions {
    static final int FIRST = Clock.started;
}

class Tokens {
    static final int SECRET = Sessions.FIRST * 31;
}

class Limits {
    static final int MOST;
    static {
        int[] none = new int[0];
        MOST = Sizes.ROWS / none.length;
    }
}

class Payments {
    static final int MOST = Limits.MOST;
}

class Settings {
    static int verbose = 1;
}

class Greeting {
    static final int LENGTH = Settings.verbose + 4;
}

class Simulation {
    static int state = 7;
    static {
        for (int i = 0; i < 1_000_000; i++) {
            state = state * 31 + i;
        }
    }
}

class Monitor {
    static final Object LOCK = new Object();
    static int seen;
    static {
        synchronized (LOCK) {
            seen = 1;
        }
    }
}

class Left {
    static int other = Right.other + 1;
}

class Right {
    static int other = Left.other + 1;
}

public class Shop {
    static final int VERSION = 12;
    public static void main(String[] arguments) {
        System.out.println(Index.PLACES.length + Discounts.BY_ITEM[3] + Orders.MOST + Parser.STATES.length);
        System.out.println(Receipts.LINES + Tokens.SECRET + Payments.MOST + Greeting.LENGTH + Routes.LENGTHS[1]);
        System.out.println(Simulation.state + Monitor.seen + Left.other + Price.FREE.cents);
    }
}
