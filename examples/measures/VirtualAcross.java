/** A virtual call on objects of classes of two code sources in turn: twenty-six instructions a turn. */
public class VirtualAcross {
    int f;

    int step(int x) {
        return x + f;
    }

    public static void main(String[] args) {
        VirtualAcross a = new VirtualAcross();
        VirtualAcross b = new Other();
        a.f = 1;
        b.f = 2;
        int s = 0;
        for (int i = 0; i < DEPTH; i = i + 1) {
            s = a.step(s);
            s = b.step(s);
        }
        System.out.println(s);
    }
}

class Other extends VirtualAcross {
    int step(int x) {
        return x - f;
    }
}
