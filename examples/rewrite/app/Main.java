package app;

import java.security.AccessControlException;
import lib.Vault;

public class Main {
    public static void main(String[] args) {
        System.out.println(Vault.today());
        try {
            System.out.println(Vault.open("/srv/reports/old"));
        } catch (AccessControlException denied) {
            System.out.println("kept from us");
        }
    }
}
