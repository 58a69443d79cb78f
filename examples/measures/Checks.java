import java.security.AccessController;
import java.util.PropertyPermission;

/** 20,000 checks of a permission at a depth. */
public class Checks {
    static void at(int depth, PropertyPermission p) {
        if (depth > 1) {
            at(depth - 1, p);
            return;
        }
        for (int i = 0; i < 20000; i = i + 1) {
            AccessController.checkPermission(p);
        }
    }

    public static void main(String[] args) {
        at(DEPTH - 1, new PropertyPermission("x", "read"));
    }
}
