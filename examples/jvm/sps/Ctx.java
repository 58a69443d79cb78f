package sps;

import java.util.ArrayList;
import java.util.Arrays;
import java.util.HashSet;
import java.util.List;
import java.util.Set;
import java.util.concurrent.ConcurrentHashMap;
import sps.Lib.Permission;

/**
 * A caller's security context: which domains a check asks, and under which limits. It never changes, and any thread may use it. Moved methods
 * are handed one as their last parameter; they make none but by {@link Rt}.
 */
public final class Ctx {
    /** A domain that is asked; besides what it is granted, what one of the limits implies will do. Most items have none. */
    private record Item(Set<Permission> limits, int domain) {
        /** Whether this fails wherever the later one does, so that the later one needn't be asked. */
        boolean covers(Item later) { return domain == later.domain && later.limits.containsAll(limits); }

        boolean fails(Permission p) {
            if (Rt.granted(domain).cover(p)) return false;
            for (Permission limit : limits) if (limit.implies(p)) return false;
            return true;
        }

        Item limited(Set<Permission> more) {
            Set<Permission> all = new HashSet<>(limits);
            all.addAll(more);
            return new Item(all, domain);
        }
    }

    /** How many contexts of a family are kept. Behind these each is made when it is asked for, so that memory is bounded. */
    private static final int MOST = 1 << 16;

    /** The context of `main`, which restricts nothing. */
    static final Ctx TOP = new Ctx(List.of(), new ConcurrentHashMap<>());

    /** The domain of the first item, where that has no limits: entering it changes nothing. */
    final long head;
    /** Newest first. */
    private final Item[] items;
    /** Contexts that come of one another by `enter` are kept once: two domains that call each other make two contexts, however deep. */
    private final ConcurrentHashMap<List<Item>, Ctx> family;
    /** What `enter` answered, by domain. Read and written without a lock: at worst it is looked for again. */
    private Ctx[] entered = {};
    /** A permission that is granted here, so that who asks again needn't look. Without a lock too. */
    private Permission granted;

    private Ctx(List<Item> items, ConcurrentHashMap<List<Item>, Ctx> family) {
        this.items = items.toArray(Item[]::new);
        this.family = family;
        head = items.isEmpty() || !items.get(0).limits.isEmpty() ? Long.MIN_VALUE : items.get(0).domain;
    }

    /** The context of a method of a domain that is called in this one. */
    Ctx enter(int domain) {
        Ctx[] known = entered;
        if (domain >= 0 && domain < known.length && known[domain] != null) return known[domain];
        List<Item> kept = new ArrayList<>();
        keep(kept, new Item(Set.of(), domain));
        for (Item i : items) keep(kept, i);
        Ctx next = in(family, kept);
        if (domain >= 0 && domain < 4_096 && family.size() < MOST) {
            known = Arrays.copyOf(known, Math.max(known.length, domain + 1));
            known[domain] = next;
            entered = known;
        }
        return next;
    }

    /** The context of a privilege: a domain, then the items of what is given, then those of the caller with the limits added. */
    static Ctx limited(int domain, Ctx given, Set<Permission> limits, Ctx caller) {
        List<Item> kept = new ArrayList<>(Arrays.asList(given.enter(domain).items));
        for (Item i : caller.items) keep(kept, i.limited(limits));
        return in(TOP.family, kept);
    }

    /** Adds an item, unless an earlier one covers it. */
    private static void keep(List<Item> kept, Item item) {
        for (Item i : kept) if (i.covers(item)) return;
        kept.add(item);
    }

    /** Limits are made at run time, so contexts with limits begin a family of their own, which goes when they go. */
    private static Ctx in(ConcurrentHashMap<List<Item>, Ctx> family, List<Item> kept) {
        boolean plain = kept.stream().allMatch(i -> i.limits.isEmpty());
        var of = plain ? TOP.family : family != TOP.family ? family : new ConcurrentHashMap<List<Item>, Ctx>();
        Ctx old = of.get(kept);
        if (old != null || of.size() >= MOST) return old != null ? old : new Ctx(kept, of);
        Ctx made = new Ctx(kept, of);
        old = of.putIfAbsent(kept, made);
        return old == null ? made : old;
    }

    /** The first domain that fails, as an unsigned number; -1 where the permission is granted. */
    long denies(Permission p) {
        if (p.seen == this) return -1;
        if (!p.equals(granted)) {
            for (Item i : items) if (i.fails(p)) return Integer.toUnsignedLong(i.domain);
            granted = p;
        }
        p.seen = this;
        return -1;
    }
}
