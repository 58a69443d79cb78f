package sps;

import java.util.HashSet;
import java.util.Objects;
import java.util.Set;
import sps.Lib.AccessControlContext;
import sps.Lib.AccessControlException;
import sps.Lib.Permission;
import sps.Lib.PrivilegedAction;

/** What moved code calls in the place of `AccessController`. None of it looks at a frame. A domain is the number of a `code` line of the job. */
public final class Rt {
    /** What each domain is granted, set once before the program begins. */
    static Grants[] grants = {};

    private Rt() {}

    static Grants granted(int domain) {
        return Integer.compareUnsigned(domain, grants.length) < 0 ? grants[domain] : Grants.NOTHING;
    }

    /**
     * The context of a method.
     *
     * @param caller the context that its caller handed on
     * @param domain the domain of the method's class
     * @return the caller's context, in which this domain is asked too
     */
    public static Ctx enter(Ctx caller, int domain) { return caller.head == domain ? caller : caller.enter(domain); }

    /**
     * Checks a permission.
     *
     * @param p what is asked for
     * @param c the context of the method that asks
     * @throws AccessControlException where a domain of the context doesn't have it
     */
    public static void check(Permission p, Ctx c) {
        Objects.requireNonNull(p);
        long domain = c.denies(p);
        if (Trace.on) Trace.check(p, domain);
        if (domain >= 0) throw new AccessControlException("access denied " + p);
    }

    /**
     * Keeps a context: `getContext`.
     *
     * @param c the context of the method that asks
     * @return an object that keeps it
     */
    public static AccessControlContext snapshot(Ctx c) { return new AccessControlContext(c); }

    /**
     * Runs an action by the privilege of its caller alone: `doPrivileged`.
     *
     * @param a the action
     * @param domain the caller's domain
     * @return what the action returns
     */
    public static Object priv(PrivilegedAction a, int domain) { return privWith(a, null, domain); }

    /**
     * Runs an action by the privilege of its caller, restricted by a context.
     *
     * @param a the action
     * @param given the context, or null, which restricts nothing
     * @param domain the caller's domain
     * @return what the action returns
     */
    public static Object privWith(PrivilegedAction a, AccessControlContext given, int domain) {
        Objects.requireNonNull(a);
        return a.run(enter(context(given), domain));
    }

    /**
     * Runs an action that has of its caller's privilege only what the limits imply; for the rest those are asked who called.
     *
     * @param a the action
     * @param given a context that restricts besides, or null
     * @param limits what is privileged; read once, before the context is made
     * @param c the caller's context
     * @param domain the caller's domain
     * @return what the action returns
     */
    public static Object privLimited(PrivilegedAction a, AccessControlContext given, Permission[] limits, Ctx c, int domain) {
        Set<Permission> all = new HashSet<>();
        for (Permission limit : limits) all.add(Objects.requireNonNull(limit));
        Objects.requireNonNull(a);
        return a.run(Ctx.limited(domain, context(given), all, c));
    }

    private static Ctx context(AccessControlContext given) { return given == null ? Ctx.TOP : given.context; }
}
