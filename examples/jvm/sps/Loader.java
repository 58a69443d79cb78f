package sps;

import java.io.ByteArrayInputStream;
import java.io.ByteArrayOutputStream;
import java.io.DataInputStream;
import java.io.DataOutputStream;
import java.io.IOException;
import java.nio.BufferUnderflowException;
import java.nio.ByteBuffer;
import java.util.ArrayList;
import java.util.HashMap;
import java.util.List;
import java.util.Map;
import java.util.regex.Matcher;
import java.util.regex.Pattern;

/** Defines stored classes. In each, names of Lib's classes take the place of Java's; code, frames and attributes stay as they are. */
final class Loader extends ClassLoader {
    private static final Pattern CLASS = Pattern.compile("L([^;]+);");
    private final Map<String, byte[]> files = new HashMap<>();

    Loader() { super(Loader.class.getClassLoader()); }

    /** Takes a class file, and answers its class's name with dots. */
    String add(String path, byte[] bytes) throws Refused {
        try {
            File file = new File(bytes.clone());
            String name = file.name.replace('/', '.');
            if (name.startsWith("sps.")) throw new Refused("class " + file.name + " has a name of the moved program's library");
            if (name.startsWith("java.")) throw new Refused("class " + file.name + ": a JVM takes no class of java/ from a program");
            if (files.put(name, file.renamed()) != null) throw new Refused("class " + file.name + " stands twice in the job");
            return name;
        } catch (IOException | BufferUnderflowException | IllegalArgumentException | IndexOutOfBoundsException e) {
            throw new Refused(path + " is no class file that can be read");
        }
    }

    @Override protected Class<?> loadClass(String name, boolean resolve) throws ClassNotFoundException {
        byte[] file = files.get(name);
        if (file == null) return super.loadClass(name, resolve);
        synchronized (getClassLoadingLock(name)) {
            Class<?> c = findLoadedClass(name);
            return c != null ? c : defineClass(name, file, 0, file.length);
        }
    }

    /** A class file whose numbers of texts are led to other texts. The old ones stay, since a string of the program may be the same entry. */
    private static final class File {
        private final ByteBuffer in;
        /** Where each entry of the pool begins: its tag. */
        private final int[] at;
        private final int poolEnd;
        private final List<String> more = new ArrayList<>();
        final String name;

        File(byte[] file) throws IOException {
            in = ByteBuffer.wrap(file);
            if (in.getInt() != 0xcafebabe) throw new IOException();
            at = new int[in.getShort(8) & 0xffff];
            in.position(10);
            for (int i = 1; i < at.length; i++) {
                at[i] = in.position();
                switch (in.get()) {
                    case 1 -> skip(in.getShort() & 0xffff);
                    case 7, 8, 16 -> skip(2);
                    case 15 -> skip(3);
                    case 5, 6 -> { skip(8); i++; }
                    default -> skip(4);
                }
            }
            poolEnd = in.position();
            name = text(in.getShort(at[in.getShort(poolEnd + 2) & 0xffff] + 1));
        }

        /** Classes of the pool, descriptors of what the code names, and those of fields and methods. */
        byte[] renamed() throws IOException, Refused {
            for (int place : at) {
                if (place > 0 && in.get(place) == 7) lead(place + 1);
                if (place > 0 && in.get(place) == 12) lead(place + 3);
            }
            skip(6);
            skip(2 * (in.getShort() & 0xffff));
            for (int table = 0; table < 2; table++) {
                for (int n = in.getShort() & 0xffff; n > 0; n--) {
                    lead(in.position() + 4);
                    skip(6);
                    for (int a = in.getShort() & 0xffff; a > 0; a--) {
                        skip(2);
                        skip(in.getInt());
                    }
                }
            }
            int count = at.length + more.size();
            if (count > 65_535) throw new Refused("class " + name + " has no room for " + more.size() + " more entries in its pool");
            in.putShort(8, (short) count);
            ByteArrayOutputStream bytes = new ByteArrayOutputStream();
            DataOutputStream out = new DataOutputStream(bytes);
            out.write(in.array(), 0, poolEnd);
            for (String text : more) {
                out.writeByte(1);
                out.writeUTF(text);
            }
            out.write(in.array(), poolEnd, in.array().length - poolEnd);
            return bytes.toByteArray();
        }

        private void skip(int n) { in.position(in.position() + n); }

        private String text(int entry) throws IOException {
            int from = at[entry & 0xffff] + 1;
            return new DataInputStream(new ByteArrayInputStream(in.array(), from, in.array().length - from)).readUTF();
        }

        /** Leads the number of a class's name or of a descriptor to what it is to be. In a descriptor a class begins at an L, from the left. */
        private void lead(int place) throws IOException {
            String old = text(in.getShort(place));
            String own = Lib.OWN.getOrDefault(old, CLASS.matcher(old).replaceAll(m ->
                Matcher.quoteReplacement("L" + Lib.OWN.getOrDefault(m.group(1), m.group(1)) + ";")));
            if (own.equals(old)) return;
            if (!more.contains(own)) more.add(own);
            in.putShort(place, (short) (at.length + more.indexOf(own)));
        }
    }
}
