/** Calls of a static method of a class of another code source, of two parameters: sixteen instructions a turn. */
public class Across {
    public static void main(String[] args) {
        int s = 0;
        for (int i = 0; i < 2500000; i = i + 1) {
            s = Other.add(s, i);
        }
        System.out.println(s);
    }
}

class Other {
    static int add(int a, int b) {
        return a + b;
    }
}
