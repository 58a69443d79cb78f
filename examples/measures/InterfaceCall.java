/** A call by an interface on objects of two classes in turn: twenty-six instructions a turn. */
public class InterfaceCall implements Step {
    int f;

    public int step(int x) {
        return x + f;
    }

    public static void main(String[] args) {
        InterfaceCall one = new InterfaceCall();
        Other two = new Other();
        one.f = 1;
        two.f = 2;
        Step a = one;
        Step b = two;
        int s = 0;
        for (int i = 0; i < 1500000; i = i + 1) {
            s = a.step(s);
            s = b.step(s);
        }
        System.out.println(s);
    }
}

interface Step {
    int step(int x);
}

class Other implements Step {
    int f;

    public int step(int x) {
        return x - f;
    }
}
