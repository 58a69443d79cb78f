public class One {
    static void one() {
    }
    public static void main(String[] args) {
        one();
    }
}
