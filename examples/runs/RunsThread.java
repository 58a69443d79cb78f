public class RunsThread {
    public static void main(String[] args) {
        Thread inner = new Thread((Runnable) null);
        Thread outer = new Thread(inner);
        outer.start();
        System.out.println("started");
    }
}
