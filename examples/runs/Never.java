public class Never implements Runnable {
    public void run() {
        System.out.println("never");
    }
    public static void main(String[] args) {
        for (int i = 0; i < 100000; i = i + 1) {
            new Thread(new Never());
        }
    }
}
