/** A chain of threads that each wait for the one before. */
public class Joins implements Runnable {
    Thread before;

    Joins(Thread before) {
        this.before = before;
    }

    public void run() {
        if (before != null) {
            try {
                before.join();
            } catch (Throwable e) {
                System.out.println("interrupted");
            }
        }
    }

    public static void main(String[] args) {
        Thread last = null;
        for (int i = 0; i < DEPTH; i = i + 1) {
            last = new Thread(new Joins(last));
            last.start();
        }
    }
}
