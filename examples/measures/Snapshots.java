import java.security.AccessController;

/** 100,000 calls of getContext at a depth. */
public class Snapshots {
    static void at(int depth) {
        if (depth > 1) {
            at(depth - 1);
            return;
        }
        for (int i = 0; i < 100000; i = i + 1) {
            AccessController.getContext();
        }
    }

    public static void main(String[] args) {
        at(DEPTH - 1);
    }
}
