public class Builders {
    static void show(String s) { System.out.println(s); }
    public static void main(String[] args) {
        StringBuilder b = new StringBuilder();
        show(b.toString());
        System.out.println(b.append(1) == b);
        b.append(-2147483648).append(2147483647).append(' ');
        b.append(-9223372036854775808L).append(9223372036854775807L).append(' ');
        b.append('x').append(true).append(false).append("y").append((String) null);
        show(b.toString());
        show(b.toString());
        System.out.println(b.toString() == b.toString());
        int two = 1, least = -1;
        show(new StringBuilder("z").append((char) least).append((char) 233).append('\n').append('\\').toString());
        show(new StringBuilder("").append("").toString());
        try { new StringBuilder((String) null); } catch (NullPointerException e) { show("null"); }
        StringBuilder none = null;
        try { none.append(1); } catch (NullPointerException e) { show("1"); }
        try { none.append(1L); } catch (NullPointerException e) { show("2"); }
        try { none.append('c'); } catch (NullPointerException e) { show("3"); }
        try { none.append(true); } catch (NullPointerException e) { show("4"); }
        try { none.append("s"); } catch (NullPointerException e) { show("5"); }
        none.toString();
    }
}
