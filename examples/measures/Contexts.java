import java.security.AccessControlContext;
import java.security.AccessController;
import java.security.PrivilegedAction;
import java.util.PropertyPermission;

/** A chain of contexts, each kept inside a privilege that is given the one before, then one check. */
public class Contexts implements PrivilegedAction {
    public Object run() {
        return AccessController.getContext();
    }

    public static void main(String[] args) {
        AccessControlContext c = null;
        Contexts s = new Contexts();
        for (int i = 0; i < DEPTH; i = i + 1) {
            c = (AccessControlContext) AccessController.doPrivileged(s, c);
        }
        c.checkPermission(new PropertyPermission("x", "read"));
    }
}
