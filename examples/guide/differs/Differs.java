import java.io.Serializable;

public class Differs {
    static void say(String what, boolean is) {
        System.out.println(what + is);
    }

    static Object serializable(Object o) {
        return (Serializable) o;
    }

    public static void main(String[] args) {
        int zero = 0;
        try {
            zero = 1 / zero;
        } catch (ArithmeticException e) {
            say("a message ", e.getMessage() != null);
        }
        say("a text ", (Object) "a" instanceof Serializable);
        say("an exception ", (Object) new Exception() instanceof Serializable);
        say("a permission ", (Object) new RuntimePermission("a") instanceof Serializable);
        try {
            serializable("a");
            say("cast ", true);
        } catch (ClassCastException e) {
            say("cast ", false);
        }
        Thread thread = new Thread((Runnable) null);
        try {
            thread.run();
            say("a run ", true);
        } catch (AbstractMethodError e) {
            say("a run ", false);
        }
    }
}
