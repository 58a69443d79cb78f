import java.security.AccessController;
import java.security.Permission;
import java.security.PrivilegedAction;
public class Inner implements PrivilegedAction {
    public Object run() {
        Permission[] wider = Limits.two("*", "*");
        AccessController.doPrivileged(new Asks("y"), null, wider);
        AccessController.doPrivileged(new Asks("x"), null, wider);
        return AccessController.doPrivileged(new Asks("x"), AccessController.getContext(), wider);
    }
}
