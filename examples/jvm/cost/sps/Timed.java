package sps;

import java.lang.invoke.MethodHandle;
import java.lang.invoke.MethodHandles;
import java.lang.management.ManagementFactory;
import java.lang.management.ThreadMXBean;

/** Runs a program's `main` some times in one thread, and prints the least of the thread's processor times, in nanoseconds a round. */
public final class Timed {
    private Timed() {}

    /** Words: what, how deep, how many rounds (100 each) for the program; then JOB GRANTS of a moved program, or CLASS of the class path. */
    public static void main(String[] words) throws Throwable {
        Trace.on = false;
        boolean moved = words.length == 5;
        MethodHandle main = moved ? Main.read(words[3], words[4], true)
            : MethodHandles.lookup().unreflect(Class.forName(words[3]).getMethod("main", String[].class));
        String[] told = {"x".repeat(Integer.parseInt(words[0])), "x".repeat(Integer.parseInt(words[1])), "x".repeat(Integer.parseInt(words[2]))};
        ThreadMXBean clock = ManagementFactory.getThreadMXBean();
        long least = Long.MAX_VALUE;
        for (int k = 0; k < 8; k++) {
            long from = clock.getCurrentThreadCpuTime();
            if (moved) main.invokeExact(told, Ctx.TOP);
            else main.invokeExact(told);
            least = Math.min(least, clock.getCurrentThreadCpuTime() - from);
        }
        System.out.printf("%.1f%n", least / 100.0 / told[2].length());
    }
}
