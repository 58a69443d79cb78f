public class Fails implements Runnable {
    static int zero;
    int n;
    Fails(int n) { this.n = n; }
    public void run() {
        if (n == 2) {
            n = n / zero;
        }
        System.out.println("one");
    }
    public static void main(String[] args) throws Throwable {
        Thread one = new Thread(new Fails(1));
        Thread two = new Thread(new Fails(2));
        one.start();
        two.start();
        two.join();
        System.out.println("joined");
    }
}
