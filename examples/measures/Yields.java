/** Two threads that yield in turn. */
public class Yields implements Runnable {
    public void run() {
        for (int i = 0; i < 500000; i = i + 1) {
            Thread.yield();
        }
    }

    public static void main(String[] args) {
        Yields y = new Yields();
        new Thread(y).start();
        y.run();
    }
}
