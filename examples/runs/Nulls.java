import java.security.AccessController;
import java.security.AccessControlContext;
import java.security.Permission;
import java.security.PrivilegedAction;
import java.util.PropertyPermission;
public class Nulls implements PrivilegedAction {
    static PrivilegedAction action;
    public Object run() {
        System.out.println("ran");
        return this;
    }
    static void show(String s) { System.out.println(s); }
    static int deep(int n) {
        try {
            return deep(n + 1);
        } catch (StackOverflowError e) {
            return n;
        }
    }
    static void last(int n) {
        if (n > 0) {
            last(n - 1);
            return;
        }
        try {
            AccessController.doPrivileged(action);
        } catch (StackOverflowError e) {
            System.out.println("full");
        }
    }
    public static void main(String[] args) {
        action = new Nulls();
        Permission[] none = new Permission[0];
        Permission[] half = new Permission[2];
        half[0] = new PropertyPermission("x", "read");
        AccessControlContext given = null;
        try { AccessController.doPrivileged((PrivilegedAction) null, null, (Permission[]) null); } catch (NullPointerException e) { show("array"); }
        try { AccessController.doPrivileged(action, null, half); } catch (NullPointerException e) { show("element"); }
        try { AccessController.doPrivileged((PrivilegedAction) null, null, none); } catch (NullPointerException e) { show("action limited"); }
        try { AccessController.doPrivileged((PrivilegedAction) null, given); } catch (NullPointerException e) { show("action given"); }
        try { AccessController.doPrivileged((PrivilegedAction) null); } catch (NullPointerException e) { show("action"); }
        System.out.println(AccessController.doPrivileged(action, given) == action);
        System.out.println(AccessController.doPrivileged(action, null, none) == action);
        try { AccessController.checkPermission(null); } catch (NullPointerException e) { show("permission"); }
        try { AccessController.getContext().checkPermission(null); } catch (NullPointerException e) { show("permission held"); }
        try { given.checkPermission(half[0]); } catch (NullPointerException e) { show("context"); }
        try { AccessController.doPrivileged(new Missing()); } catch (AbstractMethodError e) { show("missing"); }
        try { AccessController.doPrivileged(new Secret()); } catch (IllegalAccessError e) { show("not public"); }
        last(deep(0) - 1);
        last(deep(0));
        AccessController.checkPermission(half[0]);
    }
}
