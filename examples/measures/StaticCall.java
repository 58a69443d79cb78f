/** Calls of a static method of two parameters: sixteen instructions a turn. */
public class StaticCall {
    static int add(int a, int b) {
        return a + b;
    }

    public static void main(String[] args) {
        int s = 0;
        for (int i = 0; i < 2500000; i = i + 1) {
            s = add(s, i);
        }
        System.out.println(s);
    }
}
