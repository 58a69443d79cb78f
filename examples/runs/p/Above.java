package p;
public class Above {
    int inPackage() { return 1; }
    private int own() { return 2; }
    public int open() { return 3; }
    public static int shared() { return 4; }
    public int askPackage() { return inPackage(); }
    public int askOwn() { return own(); }
    public int askOpen() { return open(); }
}
