/** A virtual call on objects of two classes in turn: twenty-six instructions a turn. */
public class VirtualCall {
    int f;

    int step(int x) {
        return x + f;
    }

    public static void main(String[] args) {
        VirtualCall a = new VirtualCall();
        VirtualCall b = new Other();
        a.f = 1;
        b.f = 2;
        int s = 0;
        for (int i = 0; i < 1500000; i = i + 1) {
            s = a.step(s);
            s = b.step(s);
        }
        System.out.println(s);
    }
}

class Other extends VirtualCall {
    int step(int x) {
        return x - f;
    }
}
