/** Threads that are made and started, and end at once. */
public class ManyThreads implements Runnable {
    public void run() {
    }

    public static void main(String[] args) {
        for (int i = 0; i < DEPTH; i = i + 1) {
            new Thread(new ManyThreads()).start();
        }
    }
}
