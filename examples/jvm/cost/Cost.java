import java.security.AccessController;
import java.security.Permission;
import java.util.PropertyPermission;

/** Rounds of what is measured, at a depth of frames of two code sources by turns: the lengths of the words say what, how deep, how often. */
public class Cost implements Step {
    static int sum, what, rounds;
    int f;

    static void at(int depth) {
        if (depth > 1) Other.at(depth - 1);
        else here();
    }

    static void here() {
        Permission p = new PropertyPermission("x.y", "read");
        Permission q = new PropertyPermission("x.z", "read");
        if (what == 0) for (int i = 0; i < rounds; i++) AccessController.checkPermission(p);
        if (what == 1) for (int i = 0; i < rounds; i += 2) both(p, q);
        if (what == 2) for (int i = 0; i < rounds; i++) AccessController.checkPermission(new PropertyPermission("x.y", "read"));
        if (what == 3) for (int i = 0; i < rounds; i++) AccessController.getContext();
        if (what == 4) for (int i = 0; i < rounds; i++) sum = add(sum, i);
        if (what == 5) for (int i = 0; i < rounds; i++) sum = Other.add(sum, i);
        if (what == 6) calls(new Cost(), new Other());
        if (what == 7) for (int i = 0; i < rounds; i += 10946) sum += count(19);
    }

    static void both(Permission p, Permission q) {
        AccessController.checkPermission(p);
        AccessController.checkPermission(q);
    }

    static void calls(Step a, Step b) {
        for (int i = 0; i < rounds; i += 2) {
            sum = a.step(sum);
            sum = b.step(sum);
        }
    }

    static int add(int a, int b) { return a * 31 + b; }

    static int count(int n) { return n < 2 ? 1 : count(n - 1) + count(n - 2); }

    public int step(int x) { return x * 3 + f; }

    public static void main(String[] args) {
        sum = 1;
        what = args[0].length();
        rounds = args[2].length() * 100;
        at(args[1].length() - 1);
        if (sum == 0) System.out.println(sum);
    }
}

interface Step {
    int step(int x);
}

class Other implements Step {
    static void at(int depth) {
        if (depth > 1) Cost.at(depth - 1);
        else Cost.here();
    }

    static int add(int a, int b) { return a * 31 + b; }

    public int step(int x) { return x * 5 - 1; }
}
