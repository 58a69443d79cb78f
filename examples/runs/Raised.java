public class Raised {
    int f;
    static int zero;
    static void show(String s) { System.out.println(s); }
    static int deep(int n) { return deep(n + 1) + 1; }
    void go() { }
    static void raise(int n) {
        int[] a = new int[2];
        Raised none = null;
        Object[] many = new Raised[1];
        Object text = "s";
        switch (n) {
            case 0: a[0] = 1 / zero; break;
            case 1: a[0] = 1 % zero; break;
            case 2: a[0] = (int) (1L / (long) zero); break;
            case 3: a[0] = (int) (1L % (long) zero); break;
            case 4: a[0] = none.f; break;
            case 5: none.f = 1; break;
            case 6: none.go(); break;
            case 7: a[0] = ((int[]) null)[0]; break;
            case 8: ((int[]) null)[0] = 1; break;
            case 9: a[0] = ((int[]) null).length; break;
            case 10: a[0] = a[2]; break;
            case 11: a[-1] = 1; break;
            case 12: many[1] = null; break;
            case 13: many[0] = text; break;
            case 14: a = new int[zero - 1]; break;
            case 15: many = new Object[zero - 2147483647 - 1]; break;
            case 16: none = (Raised) text; break;
            case 17: a[0] = "s".charAt(1); break;
            case 18: a[0] = deep(0); break;
            case 19: throw null;
        }
    }
    public static void main(String[] args) {
        int n = 0;
        while (n < 4) {
            try { raise(n); } catch (ArithmeticException e) { show("arithmetic"); }
            n = n + 1;
        }
        while (n < 10) {
            try { raise(n); } catch (NullPointerException e) { show("null"); }
            n = n + 1;
        }
        while (n < 13) {
            try { raise(n); } catch (ArrayIndexOutOfBoundsException e) { show("index"); }
            n = n + 1;
        }
        try { raise(13); } catch (ArrayStoreException e) { show("store"); }
        try { raise(14); } catch (NegativeArraySizeException e) { show("size"); }
        try { raise(15); } catch (NegativeArraySizeException e) { show("size"); }
        try { raise(16); } catch (ClassCastException e) { show("cast"); }
        try { raise(17); } catch (StringIndexOutOfBoundsException e) { show("unit"); }
        try { raise(18); } catch (StackOverflowError e) { show("depth"); }
        try { raise(19); } catch (NullPointerException e) { show("null"); }
        n = 0;
        while (n < 20) {
            try {
                try {
                    raise(n);
                } catch (IllegalStateException e) {
                    show("never");
                }
            } catch (IndexOutOfBoundsException e) {
                show("above index");
            } catch (RuntimeException e) {
                show("above");
            } catch (VirtualMachineError e) {
                show("above all");
            }
            n = n + 1;
        }
        try { raise(0); } catch (Throwable t) { show("any"); }
        try { raise(20); } catch (Throwable t) { show("never"); }
        raise(13);
    }
}
