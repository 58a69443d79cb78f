import java.security.AccessController;
public class Bare extends Half {
    public static void main(String[] args) {
        try {
            AccessController.doPrivileged(new Bare());
        } catch (AbstractMethodError e) {
            System.out.println("abstract");
        }
    }
}
