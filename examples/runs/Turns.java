public class Turns implements Runnable {
    public void run() {
        Thread.yield();
        System.out.println("other");
    }
    public static void main(String[] args) {
        new Thread(new Turns()).start();
        Thread.yield();
        System.out.println("main");
    }
}
