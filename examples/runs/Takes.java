import java.security.AccessController;
import java.util.PropertyPermission;
public class Takes implements Runnable {
    public void run() {
        PropertyPermission p = new PropertyPermission("x", "read");
        Hands.held.checkPermission(p);
        AccessController.checkPermission(p);
    }
}
