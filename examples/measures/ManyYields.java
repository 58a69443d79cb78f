/** Threads that each yield a thousand times. */
public class ManyYields implements Runnable {
    public void run() {
        for (int i = 0; i < 1000; i = i + 1) {
            Thread.yield();
        }
    }

    public static void main(String[] args) {
        for (int i = 0; i < DEPTH; i = i + 1) {
            new Thread(new ManyYields()).start();
        }
    }
}
