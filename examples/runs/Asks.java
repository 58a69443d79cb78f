import java.security.AccessController;
import java.security.PrivilegedAction;
import java.util.PropertyPermission;
public class Asks implements PrivilegedAction {
    String name;
    Asks(String name) { this.name = name; }
    public Object run() {
        AccessController.checkPermission(new PropertyPermission(name, "read"));
        return null;
    }
}
