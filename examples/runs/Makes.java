import java.io.FilePermission;
import java.security.AccessController;
import java.security.AllPermission;
import java.security.Permission;
import java.security.SecurityPermission;
import java.util.PropertyPermission;
public class Makes {
    static void check(Permission p) {
        try {
            AccessController.checkPermission(p);
        } catch (SecurityException e) {
            System.out.println(e.getMessage());
        }
    }
    static void make(int n) {
        try {
            Permission p = null;
            switch (n) {
                case 0: p = new RuntimePermission(null); break;
                case 1: p = new RuntimePermission(""); break;
                case 2: p = new RuntimePermission(null, "x"); break;
                case 3: p = new SecurityPermission(null); break;
                case 4: p = new SecurityPermission("", "x"); break;
                case 5: p = new PropertyPermission(null, "read"); break;
                case 6: p = new PropertyPermission("", "read"); break;
                case 7: p = new PropertyPermission("a", "fly"); break;
                case 8: p = new PropertyPermission("a", ""); break;
                case 9: p = new PropertyPermission("a", null); break;
                case 10: p = new FilePermission(null, "read"); break;
                case 11: p = new FilePermission("/a", "read,,write"); break;
                case 12: p = new FilePermission("/a", null); break;
            }
            System.out.println("made");
        } catch (NullPointerException e) {
            System.out.println("null");
        } catch (IllegalArgumentException e) {
            System.out.println("not one");
        }
    }
    public static void main(String[] args) {
        check(new RuntimePermission("exitVM"));
        check(new RuntimePermission("exit", "ignored"));
        check(new SecurityPermission("getPolicy"));
        check(new SecurityPermission("setPolicy", "ignored"));
        check(new PropertyPermission("user.home", "WRITE, read"));
        check(new FilePermission("notes/../a.txt", "delete,read"));
        check(new AllPermission());
        int n = 0;
        while (n < 13) {
            make(n);
            n = n + 1;
        }
    }
}
