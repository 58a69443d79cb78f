import java.io.PrintStream;
public class Prints {
    public static void main(String[] args) {
        PrintStream out = System.out;
        out.println();
        out.println("");
        out.println((String) null);
        out.println("a\tb\\\u00e9");
        out.println(0);
        out.println(-2147483648);
        out.println(2147483647);
        out.println(-9223372036854775808L);
        out.println(9223372036854775807L);
        out.println(0L);
        out.println(true);
        out.println(false);
        out.println('c');
        int least = -1;
        out.println((char) least);
        PrintStream none = null;
        try { none.println(); } catch (NullPointerException e) { out.println(1); }
        try { none.println("s"); } catch (NullPointerException e) { out.println(2); }
        try { none.println(1); } catch (NullPointerException e) { out.println(3); }
        try { none.println(1L); } catch (NullPointerException e) { out.println(4); }
        try { none.println(true); } catch (NullPointerException e) { out.println(5); }
        none.println('c');
    }
}
