package sps;

import java.io.IOException;
import java.nio.ByteBuffer;
import java.nio.charset.CharacterCodingException;
import java.nio.charset.StandardCharsets;
import java.nio.file.Files;
import java.nio.file.InvalidPathException;
import java.nio.file.NoSuchFileException;
import java.nio.file.Path;
import java.util.ArrayList;
import java.util.HashSet;
import java.util.List;
import java.util.Set;
import java.util.stream.IntStream;
import java.util.stream.Stream;

/** A job that `javasec rewrite` stored, as `docs/FORMATS.md` says jobs are. Bounds and what concerns the policy are read over. */
final class Job {
    final List<String> codes = new ArrayList<>(), classes = new ArrayList<>();
    String main;
    String cwd = "/";
    int[] schedule = {};
    private final Set<String> seen = new HashSet<>();

    Job(String path) throws Refused {
        List<int[]> numbers = new ArrayList<>();
        String[] lines = text(path).split("\n");
        for (int n = 0; n < lines.length; n++) {
            if (lines[n].isEmpty() || lines[n].startsWith("#")) continue;
            int space = lines[n].indexOf(' ');
            String key = lines[n].substring(0, Math.max(space, 0)), value = lines[n].substring(space + 1);
            if (value.isEmpty() || !take(key, value, numbers))
                throw new Refused(path + ", line " + (n + 1) + ": \"" + lines[n] + "\" is no line of a job there");
        }
        if (main == null) throw new Refused(path + " is no job: it has no line `main`");
        schedule = numbers.stream().flatMapToInt(IntStream::of).toArray();
    }

    private boolean take(String key, String value, List<int[]> numbers) {
        return switch (key) {
            case "policy" -> seen.add(key);
            case "heap", "depth", "steps" -> seen.add(key) && value.matches("[0-9]{1,20}");
            case "prop" -> value.indexOf('=') > 0 && seen.add("prop " + value.substring(0, value.indexOf('=')));
            case "code" -> codes.add(value);
            case "class" -> !codes.isEmpty() && classes.add(value);
            case "main" -> seen.add(key) && (main = value) != null;
            case "cwd" -> seen.add(key) && (cwd = value).startsWith("/");
            case "schedule" -> value.matches("[0-9]{1,20}( [0-9]{1,20})*+") 
                && numbers.add(Stream.of(value.split(" ")).mapToInt(Integer::parseUnsignedInt).toArray());
            default -> false;
        };
    }

    static String text(String path) throws Refused {
        try {
            return StandardCharsets.UTF_8.newDecoder().decode(ByteBuffer.wrap(bytes(path))).toString();
        } catch (CharacterCodingException e) {
            throw new Refused(path + " isn't UTF-8");
        }
    }

    static byte[] bytes(String path) throws Refused {
        try {
            return Files.readAllBytes(Path.of(path));
        } catch (IOException | InvalidPathException e) {
            throw new Refused(path + (e instanceof NoSuchFileException ? " isn't there" : " can't be read"));
        }
    }
}
