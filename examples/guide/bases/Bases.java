import java.security.URIParameter;
import java.net.URL;
import java.nio.file.Paths;
import java.security.CodeSource;
import java.security.Policy;
import java.security.ProtectionDomain;
import java.security.cert.Certificate;

/** Whether a JDK's policy in a file grants a permission to the code of a URL. */
public class Bases {
    public static void main(String[] words) throws Exception {
        Policy policy = Policy.getInstance("JavaPolicy", new URIParameter(Paths.get(words[0]).toUri()));
        CodeSource code = new CodeSource(new URL(words[1]), (Certificate[]) null);
        ProtectionDomain domain = new ProtectionDomain(code, null, null, null);
        System.out.println(policy.implies(domain, new RuntimePermission("a")) ? "yes" : "no");
    }
}
