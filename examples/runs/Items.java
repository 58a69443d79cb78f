public class Items {
    static void show(String s) { System.out.println(s); }
    static void booleans(boolean[] a, int i, boolean v) {
        int at = 0;
        boolean read = false;
        try { a[i] = v; } catch (ArrayIndexOutOfBoundsException e) { show("index"); } catch (NullPointerException e) { show("null"); }
        try { read = a[i]; } catch (ArrayIndexOutOfBoundsException e) { show("index"); } catch (NullPointerException e) { show("null"); }
        try { at = a.length; } catch (NullPointerException e) { show("null"); }
        System.out.println(read);
        System.out.println(at);
    }
    static void bytes(byte[] a, int i, int v) {
        int at = 0;
        int read = 0;
        try { a[i] = (byte) v; } catch (ArrayIndexOutOfBoundsException e) { show("index"); } catch (NullPointerException e) { show("null"); }
        try { read = a[i]; } catch (ArrayIndexOutOfBoundsException e) { show("index"); } catch (NullPointerException e) { show("null"); }
        try { at = a.length; } catch (NullPointerException e) { show("null"); }
        System.out.println(read);
        System.out.println(at);
    }
    static void chars(char[] a, int i, int v) {
        int at = 0;
        int read = 0;
        try { a[i] = (char) v; } catch (ArrayIndexOutOfBoundsException e) { show("index"); } catch (NullPointerException e) { show("null"); }
        try { read = a[i]; } catch (ArrayIndexOutOfBoundsException e) { show("index"); } catch (NullPointerException e) { show("null"); }
        try { at = a.length; } catch (NullPointerException e) { show("null"); }
        System.out.println(read);
        System.out.println(at);
    }
    static void shorts(short[] a, int i, int v) {
        int at = 0;
        int read = 0;
        try { a[i] = (short) v; } catch (ArrayIndexOutOfBoundsException e) { show("index"); } catch (NullPointerException e) { show("null"); }
        try { read = a[i]; } catch (ArrayIndexOutOfBoundsException e) { show("index"); } catch (NullPointerException e) { show("null"); }
        try { at = a.length; } catch (NullPointerException e) { show("null"); }
        System.out.println(read);
        System.out.println(at);
    }
    static void ints(int[] a, int i, int v) {
        int at = 0;
        int read = 0;
        try { a[i] = v; } catch (ArrayIndexOutOfBoundsException e) { show("index"); } catch (NullPointerException e) { show("null"); }
        try { read = a[i]; } catch (ArrayIndexOutOfBoundsException e) { show("index"); } catch (NullPointerException e) { show("null"); }
        try { at = a.length; } catch (NullPointerException e) { show("null"); }
        System.out.println(read);
        System.out.println(at);
    }
    static void longs(long[] a, int i, long v) {
        int at = 0;
        long read = 0L;
        try { a[i] = v; } catch (ArrayIndexOutOfBoundsException e) { show("index"); } catch (NullPointerException e) { show("null"); }
        try { read = a[i]; } catch (ArrayIndexOutOfBoundsException e) { show("index"); } catch (NullPointerException e) { show("null"); }
        try { at = a.length; } catch (NullPointerException e) { show("null"); }
        System.out.println(read);
        System.out.println(at);
    }
    static void texts(String[] a, int i, String v) {
        int at = 0;
        String read = "none";
        try { a[i] = v; } catch (ArrayIndexOutOfBoundsException e) { show("index"); } catch (NullPointerException e) { show("null"); }
        try { read = a[i]; } catch (ArrayIndexOutOfBoundsException e) { show("index"); } catch (NullPointerException e) { show("null"); }
        try { at = a.length; } catch (NullPointerException e) { show("null"); }
        System.out.println(read);
        System.out.println(at);
    }
    static void objects(Object[] a, int i, Object v) {
        int at = 0;
        Object read = null;
        try { a[i] = v; } catch (ArrayIndexOutOfBoundsException e) { show("index"); } catch (ArrayStoreException e) { show("store"); } catch (NullPointerException e) { show("null"); }
        try { read = a[i]; } catch (ArrayIndexOutOfBoundsException e) { show("index"); } catch (NullPointerException e) { show("null"); }
        try { at = a.length; } catch (NullPointerException e) { show("null"); }
        System.out.println(read == v);
        System.out.println(at);
    }
    static long sums(byte[] b, char[] c, short[] s, int[] i, long[] l) {
        long sum = 0L;
        for (int k = 0; k < b.length; k++) sum = sum * 31L + (long) b[k];
        for (int k = 0; k < c.length; k++) sum = sum * 31L + (long) c[k];
        for (int k = 0; k < s.length; k++) sum = sum * 31L + (long) s[k];
        for (int k = 0; k < i.length; k++) sum = sum * 31L + (long) i[k];
        for (int k = 0; k < l.length; k++) sum = sum * 31L + l[k];
        return sum;
    }
    static int place(int n) {
        if (n == 0) return 0;
        if (n == 1) return 2;
        if (n == 2) return 3;
        if (n == 3) return -1;
        return -2147483647 - 1;
    }
    public static void main(String[] args) {
        boolean[] z = new boolean[3];
        byte[] b = new byte[3];
        char[] c = new char[3];
        short[] s = new short[3];
        int[] i = new int[3];
        long[] l = new long[3];
        String[] t = new String[3];
        Object[] o = new String[3];
        int[][] r = new int[3][];
        for (int n = 0; n < 5; n++) {
            int k = place(n);
            booleans(z, k, true);
            bytes(b, k, 511 + n);
            chars(c, k, n - 1);
            shorts(s, k, 98303 + n);
            ints(i, k, 2147483647 + n);
            longs(l, k, 9223372036854775807L + (long) n);
            texts(t, k, "text");
            objects(o, k, "text");
            objects(o, k, i);
            objects(r, k, i);
            objects(r, k, l);
        }
        booleans(new boolean[0], 0, true);
        bytes(new byte[0], 0, 1);
        chars(new char[0], 0, 1);
        shorts(new short[0], 0, 1);
        ints(new int[0], 0, 1);
        longs(new long[0], 0, 1L);
        texts(new String[0], 0, "text");
        objects(new Object[0], 0, null);
        booleans(null, 0, true);
        bytes(null, 0, 1);
        chars(null, 0, 1);
        shorts(null, 0, 1);
        ints(null, 0, 1);
        longs(null, 0, 1L);
        texts(null, 0, "text");
        objects(null, -1, null);
        System.out.println(sums(b, c, s, i, l));
        sums(b, c, s, i, null);
    }
}
