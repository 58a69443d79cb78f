import java.security.PrivilegedAction;
public class Secret implements PrivilegedAction {
    public Object run() { return null; }
}
