import java.security.AccessController;
import java.util.PropertyPermission;

/** 200,000 checks of the last of as many entries as the policy has. */
public class Entries {
    public static void main(String[] args) {
        PropertyPermission p = new PropertyPermission("name.DEPTH", "read");
        for (int i = 0; i < 200000; i = i + 1) {
            AccessController.checkPermission(p);
        }
    }
}
