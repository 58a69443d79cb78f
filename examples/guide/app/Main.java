package app;

import java.io.FilePermission;
import java.security.AccessController;
import java.security.PrivilegedAction;

public class Main {
    private static int n;

    public static void main(String[] args) {
        n = 7;
        String read = AccessController.doPrivileged(new PrivilegedAction<String>() {
            public String run() {
                AccessController.checkPermission(new FilePermission("/home/u/a.txt", "read"));
                return "n=" + n;
            }
        });
        System.out.println(read);
    }
}
