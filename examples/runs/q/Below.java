package q;
public class Below extends p.Above {
    int inPackage() { return 10; }
    private int own() { return 20; }
    public int open() { return 30 + super.open(); }
    public static int shared() { return 40; }
}
