import java.io.DataInputStream;
import java.io.IOException;
import java.io.PrintStream;
import java.nio.ByteBuffer;
import java.nio.ByteOrder;
import java.nio.charset.StandardCharsets;
import java.util.List;
import kotlin.Pair;
import org.jetbrains.kotlin.metadata.ProtoBuf;
import org.jetbrains.kotlin.metadata.deserialization.TypeTable;
import org.jetbrains.kotlin.metadata.jvm.JvmProtoBuf;
import org.jetbrains.kotlin.metadata.jvm.deserialization.JvmMemberSignature;
import org.jetbrains.kotlin.metadata.jvm.deserialization.JvmNameResolver;
import org.jetbrains.kotlin.metadata.jvm.deserialization.JvmProtoBufUtil;

/**
 * What Kotlin itself links to, by the Kotlin compiler's own reader of metadata. measure_links.py runs it.
 *
 * <p>In: inputs of the program sheet_reader, each with its length (4 bytes) in front. Out: for each a line "class", then a line for each
 * constructor, function and property in the order of the metadata. A constructor or function has a name and a descriptor, a property has
 * three of both: field, getter, setter. A tab stands between them, and "-" twice for what isn't there. An input that Kotlin's reader doesn't
 * read is the line "unread".
 *
 * <p>java -cp /usr/share/java/kotlin-compiler.jar:/usr/share/java/kotlin-stdlib.jar tools/KotlinTargets.java
 */
final class KotlinTargets {
    private static final JvmProtoBufUtil KOTLIN = JvmProtoBufUtil.INSTANCE;

    public static void main(String[] args) throws IOException {
        DataInputStream in = new DataInputStream(System.in);
        PrintStream out = new PrintStream(System.out, false, StandardCharsets.UTF_8);
        for (byte[] size = in.readNBytes(4); size.length == 4; size = in.readNBytes(4)) {
            StringBuilder lines = new StringBuilder("class\n");
            try {
                targets(input(in.readNBytes(little(size).getInt())), lines);
            } catch (IOException | RuntimeException why) {
                lines = new StringBuilder("unread\n");
            }
            out.print(lines);
        }
        out.flush();
    }

    private static ByteBuffer little(byte[] bytes) {
        return ByteBuffer.wrap(bytes).order(ByteOrder.LITTLE_ENDIAN);
    }

    private record Input(int k, String d1, String[] d2) {}

    private static Input input(byte[] bytes) {
        ByteBuffer b = little(bytes);
        int k = b.getInt();
        b.position(b.position() + 12);
        String d1 = units(b);
        String all = units(b);
        String[] d2 = new String[b.getInt()];
        for (int i = 0, start = 0; i < d2.length; i++) {
            int end = b.getInt();
            d2[i] = all.substring(start, end);
            start = end;
        }
        return new Input(k, d1, d2);
    }

    private static String units(ByteBuffer b) {
        char[] units = new char[b.getInt()];
        for (int i = 0; i < units.length; i++) units[i] = b.getChar();
        return new String(units);
    }

    private static void targets(Input input, StringBuilder lines) throws IOException {
        String[] d1 = {input.d1};
        if (input.k == 1) {
            Pair<JvmNameResolver, ProtoBuf.Class> read = JvmProtoBufUtil.readClassDataFrom(d1, input.d2);
            ProtoBuf.Class body = read.getSecond();
            TypeTable types = new TypeTable(body.getTypeTable());
            for (ProtoBuf.Constructor c : body.getConstructorList()) {
                line(lines, told(KOTLIN.getJvmConstructorSignature(c, read.getFirst(), types)));
            }
            members(body.getFunctionList(), body.getPropertyList(), read.getFirst(), types, lines);
        } else if (input.k == 2 || input.k == 5) {
            Pair<JvmNameResolver, ProtoBuf.Package> read = JvmProtoBufUtil.readPackageDataFrom(d1, input.d2);
            ProtoBuf.Package body = read.getSecond();
            members(body.getFunctionList(), body.getPropertyList(), read.getFirst(), new TypeTable(body.getTypeTable()), lines);
        }
    }

    private static void members(
            List<ProtoBuf.Function> functions, List<ProtoBuf.Property> properties, JvmNameResolver names, TypeTable types, StringBuilder lines) {
        for (ProtoBuf.Function f : functions) line(lines, told(KOTLIN.getJvmMethodSignature(f, names, types)));
        for (ProtoBuf.Property p : properties) {
            JvmProtoBuf.JvmPropertySignature own = p.getExtension(JvmProtoBuf.propertySignature);
            String field = told(KOTLIN.getJvmFieldSignature(p, names, types, true));
            line(lines, field, recorded(own.hasGetter(), own.getGetter(), names), recorded(own.hasSetter(), own.getSetter(), names));
        }
    }

    private static String told(JvmMemberSignature member) {
        return member == null ? "-\t-" : member.getName() + "\t" + member.getDesc();
    }

    private static String recorded(boolean there, JvmProtoBuf.JvmMethodSignature accessor, JvmNameResolver names) {
        return there ? names.getString(accessor.getName()) + "\t" + names.getString(accessor.getDesc()) : "-\t-";
    }

    private static void line(StringBuilder lines, String... parts) {
        lines.append(String.join("\t", parts)).append("\n");
    }
}
