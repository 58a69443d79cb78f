import java.security.AccessControlContext;
import java.security.AccessController;
import java.security.PrivilegedAction;
import java.util.PropertyPermission;

/** Privileges without a context, one after the other, then checks, each inside a privilege that is given a context kept after them. */
public class Privileges implements PrivilegedAction {
    boolean asks;

    public Object run() {
        if (asks) {
            AccessController.checkPermission(new PropertyPermission("x", "read"));
        }
        return null;
    }

    public static void main(String[] args) {
        Privileges s = new Privileges();
        for (int i = 0; i < DEPTH; i = i + 1) {
            AccessController.doPrivileged(s);
        }
        s.asks = true;
        AccessControlContext c = AccessController.getContext();
        for (int i = 0; i < 20000; i = i + 1) {
            AccessController.doPrivileged(s, c);
        }
    }
}
