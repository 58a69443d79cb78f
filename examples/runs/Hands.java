import java.security.AccessController;
import java.security.AccessControlContext;
public class Hands {
    public static AccessControlContext held;
    public static void main(String[] args) {
        held = AccessController.getContext();
        new Thread(new Takes()).start();
    }
}
