public class Fills implements Runnable {
    int n;
    Fills(int n) { this.n = n; }
    public void run() {
        int[] a = new int[n];
        System.out.println(a.length);
    }
    public static void main(String[] args) {
        new Thread(new Fills(1)).start();
        new Thread(new Fills(2)).start();
        new Thread(new Fills(1000)).start();
        System.out.println("started");
    }
}
