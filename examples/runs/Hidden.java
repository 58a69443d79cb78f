public class Hidden implements Runnable {
    public void run() {
        System.out.println("never");
    }
    public static void main(String[] args) {
        new Thread(new Hidden()).start();
        System.out.println("started");
    }
}
