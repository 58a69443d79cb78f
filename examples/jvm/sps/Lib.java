package sps;

import java.util.ArrayList;
import java.util.Collections;
import java.util.Comparator;
import java.util.HashMap;
import java.util.List;
import java.util.Locale;
import java.util.Map;
import java.util.Objects;
import java.util.concurrent.atomic.AtomicInteger;
import java.util.concurrent.locks.Condition;
import java.util.concurrent.locks.ReentrantLock;
import java.util.regex.Matcher;
import java.util.regex.Pattern;

/**
 * Library classes that have another shape in moved programs, or that a JVM is to lose. The loader puts them in the place of Java's, so a moved
 * program knows them by Java's names; what each does is what `docs/FORMATS.md` says of Java's. Nobody else needs to call them.
 */
public final class Lib {
    /** Lib's names by Java's, and the reverse. */
    static final Map<String, String> OWN = new HashMap<>(), JAVA = new HashMap<>();

    static {
        for (String java : List.of("java/lang/Runnable", "java/lang/Thread", "java/security/PrivilegedAction", "java/security/AccessController",
            "java/security/AccessControlContext", "java/security/AccessControlException", "java/security/Permission",
            "java/security/BasicPermission", "java/security/AllPermission", "java/lang/RuntimePermission",
            "java/security/SecurityPermission", "java/util/PropertyPermission", "java/io/FilePermission")) {
            String own = "sps/Lib$" + java.substring(java.lastIndexOf('/') + 1);
            OWN.put(java, own);
            JAVA.put(own.replace('/', '.'), java.replace('/', '.'));
        }
    }

    private Lib() {}

    /** The name by which the program knows a class, with dots. */
    static String name(Class<?> c) { return JAVA.getOrDefault(c.getName(), c.getName()); }

    public interface Runnable { void run(Ctx c); }

    public interface PrivilegedAction { Object run(Ctx c); }

    public static final class AccessController { private AccessController() {} }

    public static class AccessControlException extends SecurityException {
        private static final long serialVersionUID = 0;

        public AccessControlException(String message) { super(message); }

        @Override public final String toString() { return getMessage() == null ? name(getClass()) : name(getClass()) + ": " + getMessage(); }
    }

    public static final class AccessControlContext {
        final Ctx context;

        AccessControlContext(Ctx context) { this.context = context; }

        public void checkPermission(Permission p) { Rt.check(p, context); }
    }

    // ---- permissions: Java's own differ in small things (order of a constructor's tests, names that end in a dot, paths that climb)

    public abstract static class Permission {
        private static final List<String> ACTIONS = List.of("read", "write", "execute", "delete", "readlink");
        private static final Map<String, Integer> MASKS = Map.of("read", 1, "write", 2, "execute", 4, "delete", 8, "readlink", 16);
        /** ASCII letter case doesn't count, and no other. */
        private static final Pattern ACTION = Pattern.compile("(?i)[ \\t\\r\\n\\f]*(" + String.join("|", ACTIONS) + ")[ \\t\\r\\n\\f]*");
        /** 0 AllPermission, 1 RuntimePermission, 2 SecurityPermission, 3 PropertyPermission, 4 FilePermission */
        final int kind;
        final String name;
        final int actions;
        /** A context in which this is granted. */
        Ctx seen;

        Permission(int kind, String name, int actions) {
            this.kind = kind;
            this.name = name;
            this.actions = actions;
        }

        /** Whether this is of p's kind and its name covers p's. */
        abstract boolean names(Permission p);

        /** The one name or path that this covers; null where it may cover others. */
        abstract String alone();

        final boolean implies(Permission p) { return names(p) && (actions & p.actions) == p.actions; }

        /** The set of the actions that a text names, of which the first `most` are good. */
        static int mask(String text, int most) {
            if (text == null) throw new IllegalArgumentException();
            int mask = MASKS.getOrDefault(text, 0);
            for (String piece : mask != 0 ? new String[0] : text.split(",", -1)) {
                Matcher m = ACTION.matcher(piece);
                if (!m.matches()) throw new IllegalArgumentException();
                mask |= MASKS.get(m.group(1).toLowerCase(Locale.ROOT));
            }
            if (mask >= 1 << most) throw new IllegalArgumentException();
            return mask;
        }

        String written() {
            List<String> out = new ArrayList<>();
            for (int k = 0; k < ACTIONS.size(); k++) if ((actions >> k & 1) == 1) out.add(ACTIONS.get(k));
            return String.join(",", out);
        }

        @Override public final boolean equals(Object o) {
            return o == this || o instanceof Permission p && kind == p.kind && actions == p.actions && name.equals(p.name);
        }

        @Override public final int hashCode() { return name.hashCode() * 31 + actions + kind; }

        @Override public final String toString() {
            return "(\"" + Lib.name(getClass()) + "\" \"" + name + (actions == 0 ? "\")" : "\" \"" + written() + "\")");
        }
    }

    public static final class AllPermission extends Permission {
        public AllPermission() { super(0, "<all permissions>", -1); }

        @Override boolean names(Permission p) { return true; }

        @Override String alone() { return null; }

        @Override String written() { return "<all actions>"; }
    }

    public abstract static class BasicPermission extends Permission {
        private final boolean star;

        BasicPermission(int kind, String name, int actions) {
            super(kind, name, actions);
            star = name.equals("*") || name.endsWith(".*");
        }

        static String filled(String name) {
            if (name.isEmpty()) throw new IllegalArgumentException();
            return name;
        }

        @Override final String alone() { return star ? null : name; }

        @Override final boolean names(Permission p) {
            return kind == p.kind && (name.equals(p.name)
                || star && p.name.length() >= name.length() && p.name.regionMatches(0, name, 0, name.length() - 1));
        }
    }

    public static final class RuntimePermission extends BasicPermission {
        public RuntimePermission(String name) { super(1, filled(name), 0); }

        public RuntimePermission(String name, String actions) { this(name); }
    }

    public static final class SecurityPermission extends BasicPermission {
        public SecurityPermission(String name) { super(2, filled(name), 0); }

        public SecurityPermission(String name, String actions) { this(name); }
    }

    public static final class PropertyPermission extends BasicPermission {
        public PropertyPermission(String name, String actions) { super(3, filled(name), mask(actions, 2)); }
    }

    public static final class FilePermission extends Permission {
        /** The job's. Java's `user.dir` is another one. */
        static String cwd = "/";
        /** 'a' for all files, '*' or '-' for those in a folder or below it, 'f' for one. */
        private final char form;
        private final String path;

        public FilePermission(String name, String actions) {
            super(4, Objects.requireNonNull(name), mask(actions, 5));
            boolean folder = name.equals("*") || name.equals("-") || name.endsWith("/*") || name.endsWith("/-");
            int end = name.length() - (folder ? 1 : 0);
            form = name.equals("<<ALL FILES>>") ? 'a' : folder ? name.charAt(end) : 'f';
            path = path(name.substring(0, end));
        }

        /** The absolute path; `.` and `..` are taken away by text alone. */
        static String path(String name) {
            List<String> parts = new ArrayList<>();
            for (String part : (name.startsWith("/") ? name : cwd + "/" + name).split("/")) {
                if (part.equals("..") && !parts.isEmpty()) parts.remove(parts.size() - 1);
                if (!part.isEmpty() && !part.equals(".") && !part.equals("..")) parts.add(part);
            }
            return "/" + String.join("/", parts);
        }

        @Override String alone() { return form == 'f' ? path : null; }

        @Override boolean names(Permission p) {
            if (!(p instanceof FilePermission q)) return false;
            if (form == 'a' || q.form == 'a') return form == 'a';
            if (form == q.form && path.equals(q.path)) return true;
            int end = path.length() == 1 ? 1 : path.length() + 1;
            boolean below = q.path.length() > end && q.path.startsWith(path) && q.path.charAt(end - 1) == '/';
            if (form == '*') return q.form == 'f' && below && q.path.indexOf('/', end) < 0;
            return form == '-' && (below || q.form == '*' && q.path.equals(path));
        }
    }

    // ---- threads

    /** A thread of the program, with the context that it was made with. */
    public static final class Thread implements Runnable {
        /** The job's schedule; null where threads run at once, as a JVM's do. */
        static int[] schedule;
        private static final AtomicInteger MADE = new AtomicInteger();
        /** Of what changes below. */
        private static final ReentrantLock LOCK = new ReentrantLock();
        private static final Condition OVER = LOCK.newCondition();
        /** The threads that can run, by their numbers. */
        private static final List<Thread> READY = new ArrayList<>();
        private static int alive, turns;
        private static boolean failed;
        private static Thread now;

        final int number = MADE.getAndIncrement();
        private final Runnable target;
        private final Ctx kept;
        private final Condition turn = LOCK.newCondition();
        private final List<Thread> waiting = new ArrayList<>(0);
        private boolean started, ended;

        public Thread(Runnable target, Ctx c) {
            this.target = target;
            kept = c;
        }

        static Thread current() { return ((Host) java.lang.Thread.currentThread()).guest; }

        private static void locked(java.lang.Runnable what) {
            LOCK.lock();
            try {
                what.run();
            } finally {
                LOCK.unlock();
            }
        }

        /** A Thread is a Runnable by name alone. */
        @Override public void run(Ctx c) { throw new AbstractMethodError(); }

        public void start() {
            locked(() -> {
                if (started) throw new IllegalThreadStateException();
                begin();
                give();
            });
        }

        public void join() {
            locked(() -> {
                if (!started || ended) return;
                Thread me = current();
                READY.remove(me);
                waiting.add(me);
                pick();
                while (schedule == null ? !ended : now != me) me.turn.awaitUninterruptibly();
            });
        }

        public static void yield() {
            if (schedule == null) java.lang.Thread.yield();
            else locked(Thread::give);
        }

        private void begin() {
            new Host(this).start();
            started = true;
            alive++;
            ready();
        }

        private void ready() { READY.add(-1 - Collections.binarySearch(READY, this, Comparator.comparingInt(t -> t.number)), this); }

        /** The schedule says who goes on, and the current thread waits for its turn. */
        private static void give() {
            if (schedule == null) return;
            Thread me = current();
            pick();
            me.await();
        }

        private void await() { while (schedule != null && now != this) turn.awaitUninterruptibly(); }

        private static void pick() {
            now = null;
            if (READY.isEmpty()) OVER.signal();
            else if (schedule != null) {
                now = READY.get(turns < schedule.length ? Integer.remainderUnsigned(schedule[turns++], READY.size()) : 0);
                now.turn.signal();
            }
        }

        private void body() {
            locked(this::await);
            boolean[] thrown = {true};
            try {
                if (target != null) target.run(kept);
                thrown[0] = false;
            } catch (Throwable t) {
                Trace.uncaught(number, t);
            } finally {
                locked(() -> end(thrown[0]));
            }
        }

        private void end(boolean thrown) {
            failed |= thrown;
            ended = true;
            alive--;
            READY.remove(this);
            for (Thread t : waiting) {
                t.ready();
                if (schedule == null) t.turn.signal();
            }
            pick();
        }

        /** Runs a program to its end. The answer is its status: 0, 1 where an exception left a thread, 6 where threads wait for each other. */
        static int runAll(Runnable main) {
            locked(() -> {
                now = new Thread(main, Ctx.TOP);
                now.begin();
                while (!READY.isEmpty()) OVER.awaitUninterruptibly();
            });
            return alive > 0 ? 6 : failed ? 1 : 0;
        }

        /** The JVM's thread that a thread of the program runs in. */
        private static final class Host extends java.lang.Thread {
            private final Thread guest;

            Host(Thread guest) {
                super(null, null, "thread " + guest.number, Long.getLong("sps.stack", 64L << 20));
                this.guest = guest;
                setDaemon(true);
            }

            @Override public void run() { guest.body(); }
        }
    }
}
