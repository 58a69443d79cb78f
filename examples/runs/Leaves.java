import java.security.AccessController;
import java.security.PrivilegedAction;
import java.util.PropertyPermission;
public class Leaves implements PrivilegedAction {
    public Object run() {
        AccessController.checkPermission(new PropertyPermission("x", "read"));
        throw new IllegalStateException("x");
    }
}
