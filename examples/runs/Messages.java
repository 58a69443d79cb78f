public class Messages extends Exception {
    int n;
    Messages(int n, String s) { super(s); this.n = n; }
    static void show(Throwable t) { System.out.println(t.getMessage()); }
    public static void main(String[] args) {
        show(new Throwable());
        show(new Throwable("a"));
        show(new Exception("b"));
        show(new RuntimeException((String) null));
        show(new Error("c"));
        show(new ArithmeticException("d"));
        show(new StackOverflowError());
        show(new Messages(7, "e"));
        System.out.println(new Messages(7, null).n);
        try {
            throw new Messages(8, "f");
        } catch (Messages m) {
            System.out.println(m.n);
            show(m);
        }
        Throwable none = null;
        try { none.getMessage(); } catch (NullPointerException e) { show(e); }
        try { throw none; } catch (Throwable t) { show(t); }
        throw new IllegalStateException("g");
    }
}
