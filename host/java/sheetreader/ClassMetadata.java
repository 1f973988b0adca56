package sheetreader;

import java.io.ByteArrayInputStream;
import java.io.DataInputStream;
import java.io.EOFException;
import java.io.IOException;
import java.util.ArrayList;
import java.util.Arrays;
import java.util.HashMap;
import java.util.List;
import java.util.Map;

/**
 * The values of the annotation kotlin.Metadata, from a class file by chapter 4 of the Java Virtual Machine Specification (JVMS). A build that has
 * them already, from ASM for example, doesn't need this class.
 */
public final class ClassMetadata {
    public final int k;
    public final int[] mv;
    public final String[] d1;
    public final String[] d2;

    private ClassMetadata(Map<String, Object> values) throws IOException {
        k = values.containsKey("k") ? integer(values.get("k")) : 1;
        Object[] version = list(values, "mv");
        mv = new int[version.length];
        for (int i = 0; i < mv.length; i++) mv[i] = integer(version[i]);
        d1 = strings(list(values, "d1"));
        d2 = strings(list(values, "d2"));
    }

    /**
     * @return null if the class doesn't carry the annotation
     * @throws IOException if this is no class file that can be read; it says why
     */
    public static ClassMetadata of(byte[] classFile) throws IOException {
        try {
            Map<String, Object> values = new ClassFile(classFile).metadata();
            return values == null ? null : new ClassMetadata(values);
        } catch (EOFException e) {
            throw new IOException("the class file ends in the middle of a structure", e);
        }
    }

    /** The class's sheet. */
    public Answer read() {
        return SheetReader.read(k, mv, d1, d2);
    }

    /** Which strings of d2 its reading falls to. */
    public UsedStrings strings() {
        return SheetReader.strings(k, mv, d1, d2);
    }

    private static Object[] list(Map<String, Object> values, String name) throws IOException {
        Object value = values.getOrDefault(name, new Object[0]);
        if (value instanceof Object[]) return (Object[]) value;
        throw new IOException("kotlin.Metadata's " + name + " is no array");
    }

    private static int integer(Object value) throws IOException {
        if (value instanceof Integer) return (Integer) value;
        throw new IOException("kotlin.Metadata has something else where a number belongs");
    }

    private static String[] strings(Object[] values) throws IOException {
        for (Object value : values) {
            if (!(value instanceof String)) throw new IOException("kotlin.Metadata has something else where a string belongs");
        }
        return Arrays.copyOf(values, values.length, String[].class);
    }

    /** A class file, read from front to back as far as its annotations. */
    private static final class ClassFile {
        /** Annotations in annotations, and arrays in arrays, nest no deeper: a real one nests by two. */
        private static final int DEPTH = 64;

        /** A value that metadata doesn't hold. */
        private static final Object OTHER = new Object();

        private final Map<Integer, Object> constants = new HashMap<>(); // strings and numbers of 4 bytes, by their index
        private DataInputStream in;

        ClassFile(byte[] bytes) throws IOException {
            in = new DataInputStream(new ByteArrayInputStream(bytes));
            if (in.readInt() != 0xCAFEBABE) throw new IOException("it doesn't begin as a class file does");
            skip(4);
            int count = in.readUnsignedShort();
            for (int i = 1; i < count; i++) if (constant(i)) i++;
        }

        /** Whether the constant takes two places (JVMS 4.4.5). */
        private boolean constant(int index) throws IOException {
            int tag = in.readUnsignedByte();
            switch (tag) {
                case 1: constants.put(index, in.readUTF()); return false;
                case 3: constants.put(index, in.readInt()); return false;
                case 5: case 6: skip(8); return true;
                case 7: case 8: case 16: case 19: case 20: skip(2); return false;
                case 15: skip(3); return false;
                case 4: case 9: case 10: case 11: case 12: case 17: case 18: skip(4); return false;
                default: throw new IOException("constant " + index + " has the unknown tag " + tag);
            }
        }

        /** The elements of kotlin.Metadata by their names; null if it isn't there. */
        Map<String, Object> metadata() throws IOException {
            skip(6);
            skip(2L * in.readUnsignedShort());
            skipMembers();
            skipMembers();
            for (int left = in.readUnsignedShort(); left > 0; left--) {
                boolean annotations = string().equals("RuntimeVisibleAnnotations");
                long length = in.readInt() & 0xFFFFFFFFL;
                if (length > in.available()) throw new EOFException();
                byte[] body = in.readNBytes((int) length);
                Map<String, Object> found = annotations ? metadataIn(body) : null;
                if (found != null) return found;
            }
            return null;
        }

        private Map<String, Object> metadataIn(byte[] annotations) throws IOException {
            DataInputStream after = in;
            in = new DataInputStream(new ByteArrayInputStream(annotations));
            for (int left = in.readUnsignedShort(); left > 0; left--) {
                boolean found = string().equals("Lkotlin/Metadata;");
                Map<String, Object> values = elements(DEPTH);
                if (found) return values;
            }
            in = after;
            return null;
        }

        /** Fields, or methods. */
        private void skipMembers() throws IOException {
            for (int left = in.readUnsignedShort(); left > 0; left--) {
                skip(6);
                for (int attributes = in.readUnsignedShort(); attributes > 0; attributes--) {
                    skip(2);
                    skip(in.readInt() & 0xFFFFFFFFL);
                }
            }
        }

        private Map<String, Object> elements(int depth) throws IOException {
            Map<String, Object> values = new HashMap<>();
            for (int left = in.readUnsignedShort(); left > 0; left--) values.put(string(), element(depth));
            return values;
        }

        /** An element's value (JVMS 4.7.16.1): a number, a string, an array of them, or OTHER. */
        private Object element(int depth) throws IOException {
            if (depth == 0) throw new IOException("an annotation nests too deep");
            int tag = in.readUnsignedByte();
            switch (tag) {
                case 's': return string();
                case 'B': case 'C': case 'I': case 'S': case 'Z': return constantOf(Integer.class);
                case 'D': case 'F': case 'J': case 'c': skip(2); return OTHER;
                case 'e': skip(4); return OTHER;
                case '@': string(); elements(depth - 1); return OTHER;
                case '[': return array(depth - 1);
                default: throw new IOException("an annotation has an element of the unknown kind " + tag);
            }
        }

        private Object[] array(int depth) throws IOException {
            List<Object> values = new ArrayList<>();
            for (int left = in.readUnsignedShort(); left > 0; left--) values.add(element(depth));
            return values.toArray();
        }

        private String string() throws IOException {
            return constantOf(String.class);
        }

        private <T> T constantOf(Class<T> type) throws IOException {
            int index = in.readUnsignedShort();
            Object constant = constants.get(index);
            if (type.isInstance(constant)) return type.cast(constant);
            throw new IOException("constant " + index + " is missing or of another kind");
        }

        private void skip(long count) throws IOException {
            if (in.skip(count) != count) throw new EOFException();
        }
    }
}
