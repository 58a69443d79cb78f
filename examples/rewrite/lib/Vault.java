package lib;

import java.io.FilePermission;
import java.security.AccessController;
import java.security.PrivilegedAction;

public class Vault {
    public static String open(String name) {
        AccessController.checkPermission(new FilePermission(name, "read"));
        return name.concat(" is open");
    }

    public static String today() {
        return AccessController.doPrivileged(new PrivilegedAction<String>() {
            public String run() {
                return open("/srv/reports/today");
            }
        });
    }
}
