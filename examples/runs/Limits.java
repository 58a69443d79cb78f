import java.security.AccessController;
import java.security.AccessControlContext;
import java.security.Permission;
import java.util.PropertyPermission;
public class Limits {
    static Permission[] two(String a, String b) {
        Permission[] both = new Permission[2];
        both[0] = new PropertyPermission(a, "read");
        both[1] = new PropertyPermission(b, "read");
        return both;
    }
    static void one() {
        AccessController.doPrivileged(new Asks("x"), null, two("y", "x"));
    }
    static void other() {
        AccessController.doPrivileged(new Asks("x"), null, two("*", "z"));
    }
    static void neither() {
        try {
            AccessController.doPrivileged(new Asks("x"), null, two("y", "z"));
        } catch (SecurityException e) {
            System.out.println("neither");
        }
    }
    static void wider() {
        try {
            AccessController.doPrivileged(new Inner(), null, two("y", "y"));
        } catch (SecurityException e) {
            System.out.println("wider");
        }
    }
    static void given(AccessControlContext given) {
        try {
            AccessController.doPrivileged(new Asks("x"), given, two("x", "y"));
        } catch (SecurityException e) {
            System.out.println(e.getMessage());
        }
    }
    static void after() {
        try {
            AccessController.doPrivileged(new Leaves());
        } catch (IllegalStateException e) {
            new Asks(e.getMessage()).run();
        }
    }
}
