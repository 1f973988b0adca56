import java.io.IOException;
import java.util.ArrayList;
import java.util.List;
import java.util.concurrent.ExecutionException;
import java.util.concurrent.ExecutorService;
import java.util.concurrent.Executors;
import java.util.concurrent.Future;
import java.util.stream.Collectors;
import java.util.zip.ZipEntry;
import java.util.zip.ZipFile;
import sheetreader.Answer;
import sheetreader.ClassMetadata;
import sheetreader.Records;

/**
 * usage: java -Dsheetreader.library=/../target/java/libsheet_reader.so -cp target/java/classes ReadJar FILE.jar [THREADS]
 *
 * <p>Reads every Kotlin class of a jar from several threads (as many as there are processors). Prints a line a class, in the jar's order, and to
 * standard error how many were read. The exit status is 0 if all were read, 1 if one was refused or damaged, 2 if it is called otherwise, 4 if
 * the jar can't be read.
 */
public final class ReadJar {
    private enum State { READ, REFUSED, NOT_A_CLASS, NOT_KOTLIN }

    private static final class Line {
        final State state;
        final String text;

        Line(State state, String text) {
            this.state = state;
            this.text = text;
        }
    }

    public static void main(String[] args) throws InterruptedException, ExecutionException {
        if (args.length < 1 || args.length > 2 || args.length == 2 && !args[1].matches("[1-9][0-9]{0,3}")) {
            System.err.println("usage: ReadJar FILE.jar [THREADS]");
            System.exit(2);
        }
        int threads = args.length == 2 ? Integer.parseInt(args[1]) : Runtime.getRuntime().availableProcessors();
        try (ZipFile jar = new ZipFile(args[0])) {
            System.exit(print(lines(jar, threads)));
        } catch (IOException e) {
            System.err.println("ReadJar: " + args[0] + ": " + e.getMessage());
            System.exit(4);
        }
    }

    private static List<Line> lines(ZipFile jar, int threads) throws InterruptedException, ExecutionException {
        ExecutorService pool = Executors.newFixedThreadPool(threads);
        try {
            List<Future<Line>> started = new ArrayList<>();
            for (ZipEntry entry : jar.stream().collect(Collectors.toList())) {
                if (entry.getName().endsWith(".class")) started.add(pool.submit(() -> line(jar, entry)));
            }
            List<Line> lines = new ArrayList<>();
            for (Future<Line> one : started) lines.add(one.get());
            return lines;
        } finally {
            pool.shutdown();
        }
    }

    private static Line line(ZipFile jar, ZipEntry entry) {
        try {
            ClassMetadata metadata = ClassMetadata.of(jar.getInputStream(entry).readAllBytes());
            if (metadata == null) return new Line(State.NOT_KOTLIN, null);
            Answer answer = metadata.read();
            return new Line(answer.isRead() ? State.READ : State.REFUSED, entry.getName() + "  " + told(answer));
        } catch (IOException e) {
            return new Line(State.NOT_A_CLASS, entry.getName() + "  " + e.getMessage());
        }
    }

    /** The head's counts, or the refusal. */
    private static String told(Answer answer) {
        Records r = answer.records();
        if (!r.next()) return answer.toString();
        String name = r.text(2) == null ? "" : r.text(2) + ": ";
        return name + r.number(14, 2) + " constructors, " + r.number(16, 2) + " functions, " + r.number(18, 2) + " properties";
    }

    private static int print(List<Line> lines) {
        int[] counts = new int[State.values().length];
        for (Line line : lines) {
            counts[line.state.ordinal()]++;
            if (line.text != null) System.out.println(line.text);
        }
        int refused = counts[State.REFUSED.ordinal()], damaged = counts[State.NOT_A_CLASS.ordinal()];
        System.err.println(counts[State.READ.ordinal()] + " read, " + refused + " refused, " + damaged + " not a class, "
                + counts[State.NOT_KOTLIN.ordinal()] + " without Kotlin metadata");
        return System.out.checkError() ? 4 : refused + damaged == 0 ? 0 : 1;
    }
}
