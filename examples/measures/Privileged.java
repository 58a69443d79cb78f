import java.security.AccessController;
import java.security.PrivilegedAction;
import java.util.PropertyPermission;

/** 20,000 checks inside a privilege, which stands in the third frame from the top. */
public class Privileged implements PrivilegedAction {
    static void at(int depth) {
        if (depth > 1) {
            at(depth - 1);
            return;
        }
        AccessController.doPrivileged(new Privileged());
    }

    public Object run() {
        PropertyPermission p = new PropertyPermission("x", "read");
        for (int i = 0; i < 20000; i = i + 1) {
            AccessController.checkPermission(p);
        }
        return null;
    }

    public static void main(String[] args) {
        at(DEPTH - 3);
    }
}
