import java.security.PrivilegedAction;
public abstract class Half implements PrivilegedAction {
    public abstract Object run();
}
