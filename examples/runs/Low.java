import java.security.AccessController;
import java.security.AccessControlContext;
public class Low {
    static AccessControlContext held() {
        return AccessController.getContext();
    }
    public static void main(String[] args) {
        Limits.one();
        Limits.other();
        Limits.neither();
        Limits.wider();
        Limits.given(held());
        Limits.after();
    }
}
