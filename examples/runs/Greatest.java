public class Greatest {
    public static void main(String[] args) {
        long[] none = new long[2147483647];
        System.out.println("never");
    }
}
