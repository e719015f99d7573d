class Orders {
    static int open = Stock.items + 1;
}

class Stock {
    static int items = Orders.open + 1;
}

class Shop {
    public static void main(String[] args) {
        System.out.println(Orders.open);
    }
}

class Store {
    public static void main(String[] args) {
        System.out.println(Stock.items);
    }
}
