public class Deep {
    static int deep(int n) {
        try {
            return deep(n + 1);
        } catch (StackOverflowError e) {
            return n;
        }
    }
    public static void main(String[] args) {
        System.out.println(deep(0));
    }
}
