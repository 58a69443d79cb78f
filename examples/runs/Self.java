public class Self implements Runnable {
    static Thread own;
    public void run() {
        try {
            own.join();
        } catch (Throwable t) {
            System.out.println("never");
        }
        System.out.println("never");
    }
    public static void main(String[] args) {
        own = new Thread(new Self());
        own.start();
        System.out.println("started");
    }
}
