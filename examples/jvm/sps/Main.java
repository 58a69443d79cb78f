package sps;

import java.lang.invoke.MethodHandle;
import java.lang.invoke.MethodHandles;
import java.lang.reflect.Method;
import java.lang.reflect.Modifier;
import java.util.ArrayList;
import java.util.Arrays;
import java.util.List;

/**
 * Runs on a JVM what `javasec rewrite` stored:
 *
 * <pre>
 * javasec rewrite JOB OUT
 * javasec policy OUT/job &gt;GRANTS
 * java -cp rt sps.Main [--threads] [--quiet] OUT/job GRANTS
 * </pre>
 *
 * It writes what `javasec run --form=plain OUT/job` writes, but for the lines `throw`. With `--threads` the program's threads run at once, in
 * place of the job's schedule. With `--quiet` the program alone prints, as on any JVM. Who may write the class files decides what they may
 * do: keep OUT and GRANTS as safe as the policy.
 */
public final class Main {
    private static final String USAGE = "usage: java -cp rt sps.Main [--threads] [--quiet] JOB GRANTS";

    private Main() {}

    /**
     * Runs a job, and ends the JVM with its status.
     *
     * @param words the job, and the list that `javasec policy` wrote of it; before them `--threads`, `--quiet`
     */
    public static void main(String[] words) { System.exit(run(words)); }

    /**
     * Runs a job, once in a JVM.
     *
     * @param words as of {@link #main}
     * @return 0 where all threads ended, 1 where an exception left one, 6 where threads wait for each other, 8 where a line couldn't be written;
     *     2 where nothing was run: standard error then has one sentence that says why
     */
    public static int run(String... words) {
        List<String> left = new ArrayList<>(Arrays.asList(words));
        boolean threads = false;
        while (!left.isEmpty() && left.get(0).startsWith("--")) {
            String word = left.remove(0);
            if (word.equals("--")) break;
            if (!word.equals("--threads") && !word.equals("--quiet")) return refuse(USAGE);
            threads |= word.equals("--threads");
            Trace.on &= !word.equals("--quiet");
        }
        if (left.size() != 2) return refuse(USAGE);
        try {
            MethodHandle main = read(left.get(0), left.get(1), threads);
            Trace.begin();
            int status = Lib.Thread.runAll(c -> Main.<RuntimeException>call(main, c));
            return Trace.end(status) ? status : 8;
        } catch (Refused e) {
            return refuse(e.getMessage());
        } catch (NumberFormatException e) {
            return refuse(left.get(0) + " is no job: a number of its schedule is above 4294967295");
        }
    }

    private static int refuse(String why) {
        System.err.println(why);
        return 2;
    }

    /** Reads, links and verifies everything before any of it runs. */
    static MethodHandle read(String jobPath, String grantsPath, boolean threads) throws Refused {
        Job job = new Job(jobPath);
        Lib.FilePermission.cwd = job.cwd;
        Rt.grants = Grants.read(grantsPath, Job.text(grantsPath), job.codes);
        Lib.Thread.schedule = threads ? null : job.schedule;
        Loader loader = new Loader();
        List<String> names = new ArrayList<>();
        for (String path : job.classes) names.add(loader.add(path, Job.bytes(path)));
        String of = "";
        try {
            for (String name : names) Class.forName(of = name, true, loader);
            of = job.main.replace('/', '.');
            if (!names.contains(of)) throw new Refused("main " + job.main + ": the job has no such class");
            Method main = Class.forName(of, true, loader).getDeclaredMethod("main", String[].class, Ctx.class);
            if (main.getReturnType() != void.class || (main.getModifiers() & ~Modifier.FINAL) != (Modifier.PUBLIC | Modifier.STATIC))
                throw new Refused("main " + job.main + ": its `main` isn't public, static and void");
            main.setAccessible(true);
            return MethodHandles.lookup().unreflect(main);
        } catch (NoSuchMethodException e) {
            throw new Refused("main " + job.main + " has no `main` that takes a context: `javasec rewrite` makes it, and OUT/job names it");
        } catch (ReflectiveOperationException | LinkageError | SecurityException e) {
            throw new Refused("class " + of + " can't be linked: " + String.valueOf(e.getMessage()).lines().findFirst().orElse(""));
        }
    }

    @SuppressWarnings("unchecked")
    private static <T extends Throwable> void call(MethodHandle main, Ctx c) throws T {
        try {
            main.invokeExact(new String[0], c);
        } catch (Throwable t) {
            throw (T) t;
        }
    }
}
