import java.security.AccessController;
import java.security.Permission;
import java.security.PrivilegedAction;
import java.util.PropertyPermission;

/** Privileges in each other, each by the context that it finds and within a limit, then a check that is denied. */
public class Nested implements PrivilegedAction {
    int n;

    Nested(int n) {
        this.n = n;
    }

    static void nest(int n) {
        Permission[] limits = new Permission[1];
        limits[0] = new PropertyPermission("y", "read");
        AccessController.doPrivileged(new Nested(n), AccessController.getContext(), limits);
    }

    public Object run() {
        if (n > 0) {
            nest(n - 1);
        } else {
            AccessController.checkPermission(new PropertyPermission("x", "read"));
        }
        return null;
    }

    public static void main(String[] args) {
        nest(DEPTH);
    }
}
