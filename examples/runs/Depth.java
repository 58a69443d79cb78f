public class Depth implements Runnable {
    static void down(int n) {
        if (n > 0) {
            down(n - 1);
            return;
        }
        System.out.println("down");
    }
    static void start(int n) throws Throwable {
        if (n > 0) {
            start(n - 1);
            return;
        }
        Thread t = new Thread(new Depth());
        t.start();
        t.join();
        System.out.println("joined");
    }
    public void run() {
        try {
            down(1);
            down(2);
            down(3);
        } catch (StackOverflowError t) {
            System.out.println("too deep");
        }
    }
    public static void main(String[] args) throws Throwable {
        start(1);
        start(2);
    }
}
