package sps;

import java.io.BufferedOutputStream;
import java.io.FileDescriptor;
import java.io.FileOutputStream;
import java.io.OutputStream;
import java.io.PrintStream;
import java.nio.charset.StandardCharsets;
import java.util.HexFormat;
import sps.Lib.Permission;

/** The lines of a run, and the `System.out` that makes some of them. */
final class Trace extends PrintStream {
    /** Else the program prints as on any JVM, and nothing is said of checks. Set before the program begins. */
    static boolean on = true;
    private static final PrintStream OUT = new PrintStream(new BufferedOutputStream(new FileOutputStream(FileDescriptor.out), 1 << 16));

    private Trace() { super(OutputStream.nullOutputStream()); }

    static void begin() {
        if (!on) return;
        System.setOut(new Trace());
        Runtime.getRuntime().addShutdownHook(new Thread(OUT::flush));
    }

    static void check(Permission p, long domain) {
        line(domain < 0 ? "grant" : "deny", Lib.Thread.current().number, domain < 0 ? p.toString() : p + " domain " + domain);
    }

    static void uncaught(int thread, Throwable t) {
        if (on) line("uncaught", thread, Lib.name(t.getClass()));
        else {
            System.err.print("Exception in thread " + thread + " ");
            t.printStackTrace();
        }
    }

    /** One event, in one piece. */
    private static void line(String event, int thread, String text) {
        StringBuilder out = new StringBuilder(event).append(' ').append(thread).append(' ');
        for (int i = 0; i < text.length(); i++) {
            char u = text.charAt(i);
            if (u == '\\') out.append("\\\\");
            else if (u >= 0x20 && u <= 0x7e) out.append(u);
            else out.append("\\u").append(HexFormat.of().toHexDigits(u));
        }
        byte[] bytes = out.append('\n').toString().getBytes(StandardCharsets.ISO_8859_1);
        OUT.write(bytes, 0, bytes.length);
    }

    /** Whether all lines went out, with the last one. */
    static boolean end(int status) {
        if (!on) return true;
        OUT.append(status == 0 ? "end finished\n" : status == 1 ? "end uncaught\n" : "end deadlock\n");
        return !OUT.checkError();
    }

    private static void out(String text) { line("out", Lib.Thread.current().number, text); }

    @Override public void println() { out(""); }

    @Override public void println(String s) { out(String.valueOf(s)); }

    @Override public void println(int i) { out(String.valueOf(i)); }

    @Override public void println(long j) { out(String.valueOf(j)); }

    @Override public void println(boolean z) { out(String.valueOf(z)); }

    @Override public void println(char c) { out(String.valueOf(c)); }
}
