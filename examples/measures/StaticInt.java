/** A loop over a static int: eight instructions a turn. */
public class StaticInt {
    static int n;

    public static void main(String[] args) {
        n = 0;
        while (n < 5000000) {
            n = n + 1;
        }
        System.out.println(n);
    }
}
