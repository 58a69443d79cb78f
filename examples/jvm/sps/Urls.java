package sps;

import java.net.IDN;
import java.nio.charset.StandardCharsets;
import java.util.Locale;
import java.util.Map;
import java.util.regex.Matcher;
import java.util.regex.Pattern;

/** Whether two texts are one URL. Made so that no URL differs from how the URL Standard writes it; a few that differ aren't told apart. */
final class Urls {
    private static final Map<String, String> PORTS = Map.of("http", "80", "https", "443", "ws", "80", "wss", "443", "ftp", "21", "file", "");
    private static final Pattern PARTS = Pattern.compile("([^:]*):(?:(//)([^/?#]*))?([^?#]*)(.*)", Pattern.DOTALL);
    private static final Pattern AUTHORITY = Pattern.compile("(?:.*@)?(.*?)(?::0*([0-9]*))?", Pattern.DOTALL);

    private Urls() {}

    static boolean same(String a, String b) { return plain(a).equals(plain(b)); }

    /** Scheme, host, port, path without dots, and the rest, percent signs read. A user isn't looked at, and neither are numbers of hosts. */
    private static String plain(String url) {
        String text = url.replaceAll("^[\\x00-\\x20]+|[\\x00-\\x20]+$|[\\t\\n\\r]", "");
        int colon = text.indexOf(':');
        String scheme = text.substring(0, Math.max(colon, 0)).toLowerCase(Locale.ROOT);
        String port = PORTS.get(scheme);
        if (port != null) text = text.replace('\\', '/');
        if (port != null && !scheme.equals("file")) text = text.replaceFirst(":/*", "://");
        Matcher m = PARTS.matcher(text);
        if (!m.matches()) return text;
        Matcher a = AUTHORITY.matcher(m.group(3) == null ? "" : m.group(3));
        a.matches();
        String host = host(a.group(1), port != null), at = a.group(2) == null || a.group(2).equals(port) ? "" : a.group(2);
        if (scheme.equals("file") && host.equals("localhost")) host = "";
        return read(scheme + "://" + host + ":" + at + Lib.FilePermission.path("/" + m.group(4).replaceAll("(?i)%2e", ".")) + m.group(5));
    }

    private static String host(String text, boolean named) {
        String host = named ? read(text).toLowerCase(Locale.ROOT) : text;
        if (named && host.matches("\\[.*|(.*\\.)?[0-9][0-9a-fx]*\\.?")) return "number";
        return named && !host.matches("\\p{ASCII}*") ? IDN.toASCII(host, IDN.ALLOW_UNASSIGNED) : host;
    }

    /** A text whose percent signs and two digits are the bytes that they stand for, once. */
    private static String read(String text) {
        byte[] bytes = text.getBytes(StandardCharsets.UTF_8);
        int n = 0;
        for (int i = 0; i < bytes.length; i++, n++) {
            int high = bytes[i] == '%' && i + 2 < bytes.length ? Character.digit(bytes[i + 1], 16) : -1;
            int low = high < 0 ? -1 : Character.digit(bytes[i + 2], 16);
            bytes[n] = low < 0 ? bytes[i] : (byte) (high * 16 + low);
            if (low >= 0) i += 2;
        }
        return new String(bytes, 0, n, StandardCharsets.UTF_8);
    }
}
