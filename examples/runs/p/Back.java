package p;
public class Back extends q.Below implements Asked {
    int inPackage() { return 100; }
    public static void main(String[] args) {
        Above a = new Above();
        Above b = new q.Below();
        Above c = new Back();
        System.out.println(a.askPackage());
        System.out.println(b.askPackage());
        System.out.println(c.askPackage());
        System.out.println(b.inPackage());
        System.out.println(c.inPackage());
        System.out.println(a.askOwn());
        System.out.println(b.askOwn());
        System.out.println(a.askOpen());
        System.out.println(b.askOpen());
        System.out.println(c.open());
        System.out.println(Above.shared());
        System.out.println(q.Below.shared());
        Asked asked = new Back();
        System.out.println(asked.askOpen());
        System.out.println(asked instanceof Above);
        System.out.println(a instanceof Back);
    }
}
interface Asked {
    int askOpen();
}
