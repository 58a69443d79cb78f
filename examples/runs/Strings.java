public class Strings {
    static void show(int n) { System.out.println(n); }
    public static void main(String[] args) {
        String s = "abc";
        show("".length());
        show(s.length());
        System.out.println(s.charAt(0));
        System.out.println(s.charAt(2));
        System.out.println(s.equals("abc"));
        System.out.println(s.equals("abd"));
        System.out.println(s.equals("ab"));
        System.out.println(s.equals(null));
        System.out.println(s.equals(args));
        System.out.println(s.equals("ab".concat("c")));
        System.out.println(s.concat(""));
        System.out.println(s.concat(s).concat("d"));
        try { s.charAt(-1); } catch (StringIndexOutOfBoundsException e) { show(1); }
        try { s.charAt(3); } catch (IndexOutOfBoundsException e) { show(2); }
        try { s.concat(null); } catch (NullPointerException e) { show(3); }
        String none = null;
        try { none.length(); } catch (NullPointerException e) { show(4); }
        try { none.charAt(0); } catch (NullPointerException e) { show(5); }
        try { none.equals(s); } catch (NullPointerException e) { show(6); }
        try { none.concat(s); } catch (NullPointerException e) { show(7); }
        none.charAt(-1);
    }
}
