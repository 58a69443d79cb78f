package sps;

import java.util.ArrayList;
import java.util.HashMap;
import java.util.List;
import java.util.Map;
import java.util.regex.Matcher;
import java.util.regex.Pattern;
import sps.Lib.Permission;

/** What a domain is granted, as `javasec policy` lists it. */
final class Grants {
    static final Grants NOTHING = new Grants();
    private static final Pattern ESCAPE = Pattern.compile("\\\\(\\\\|u([0-9a-f]{4}))");

    private boolean all;
    /** By kind: the actions that are granted on each name alone, and the permissions whose names cover others. */
    private final List<Map<String, Integer>> exact = List.of(new HashMap<>(), new HashMap<>(), new HashMap<>(), new HashMap<>(), new HashMap<>());
    private final List<List<Permission>> wide = List.of(List.of(), new ArrayList<>(), new ArrayList<>(), new ArrayList<>(), new ArrayList<>());

    private Grants() {}

    private void add(Permission p) {
        if (p instanceof Lib.AllPermission) all = true;
        else if (p.alone() != null) exact.get(p.kind).merge(p.alone(), p.actions, (a, b) -> a | b);
        else wide.get(p.kind).add(p);
    }

    /** Whether a permission is granted. Actions that several entries give count together. */
    boolean cover(Permission p) {
        if (all) return true;
        int left = p.actions;
        String name = p.alone();
        Integer some = name == null ? null : exact.get(p.kind).get(name);
        if (some != null && (left &= ~some) == 0) return true;
        for (Permission q : wide.get(p.kind)) if (q.names(p) && (left &= ~q.actions) == 0) return true;
        return false;
    }

    /**
     * Reads a whole list: of each domain of a job its grants. An unresolved entry grants nothing.
     *
     * @param path what the list is called in a sentence
     * @param codes the URLs of the job's code sources, as the job writes them
     */
    static Grants[] read(String path, String text, List<String> codes) throws Refused {
        List<Grants> read = new ArrayList<>();
        for (String line : text.split("\n")) {
            if (line.startsWith("domain ")) {
                String url = codes.size() <= read.size() ? null : codes.get(read.size());
                String head = "domain " + read.size() + " ";
                if (url == null || !line.startsWith(head) || !Urls.same(url, line.substring(head.length())))
                    throw new Refused(path + " isn't what `javasec policy` lists for this job: \"" + line + "\"");
                read.add(new Grants());
            } else if (line.startsWith("permission (\"") && line.endsWith("\")") && !read.isEmpty()) {
                read.get(read.size() - 1).add(permission(path, plain(line.substring(13, line.length() - 2))));
            } else if (!line.startsWith("unresolved ") || read.isEmpty()) {
                throw new Refused(path + " is no list of `javasec policy`: \"" + line + "\"");
            }
        }
        if (read.size() < codes.size()) throw new Refused(path + " lists " + read.size() + " domains, and the job has " + codes.size());
        return read.toArray(Grants[]::new);
    }

    /** A name may hold quotes. So the class says whether there are actions, and these are behind the last quotes. */
    private static Permission permission(String path, String text) throws Refused {
        int end = text.indexOf("\" \"");
        String kind = end < 0 ? text : text.substring(0, end), name = end < 0 ? "" : text.substring(end + 3);
        int last = name.lastIndexOf("\" \"");
        String actions = last < 0 ? null : name.substring(last + 3);
        try {
            return switch (kind) {
                case "java.security.AllPermission" -> new Lib.AllPermission();
                case "java.lang.RuntimePermission" -> new Lib.RuntimePermission(name);
                case "java.security.SecurityPermission" -> new Lib.SecurityPermission(name);
                case "java.util.PropertyPermission" -> new Lib.PropertyPermission(name.substring(0, Math.max(last, 0)), actions);
                case "java.io.FilePermission" -> new Lib.FilePermission(name.substring(0, Math.max(last, 0)), actions);
                default -> throw new IllegalArgumentException();
            };
        } catch (IllegalArgumentException e) {
            throw new Refused(path + " has an entry that is no permission: " + text);
        }
    }

    /** What a line of ASCII stands for. */
    private static String plain(String text) {
        return ESCAPE.matcher(text).replaceAll(m ->
            Matcher.quoteReplacement(m.group(2) == null ? "\\" : String.valueOf((char) Integer.parseInt(m.group(2), 16))));
    }
}
