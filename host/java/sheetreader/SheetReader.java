package sheetreader;

import java.util.Objects;
import java.util.concurrent.ExecutionException;
import java.util.concurrent.ExecutorService;
import java.util.concurrent.Future;
import java.util.concurrent.SynchronousQueue;
import java.util.concurrent.ThreadPoolExecutor;
import java.util.concurrent.TimeUnit;

/**
 * The sheet reader on the JVM: the metadata of one compiled Kotlin class in, a call sheet out. docs/MANUAL.md tells all of it.
 *
 * <p>Any thread may call, several at once, whatever stack they have: the reader itself runs on threads of this class's own, whose stack is
 * long enough for every input. They are daemons and end when they have had nothing to do for some seconds.
 *
 * <p>The shared library (host/java/build makes it) is the file that the system property {@code sheetreader.library} names, or else
 * libsheet_reader.so in a folder of {@code java.library.path}.
 */
public final class SheetReader {
    /** The number of the sheets' format. It goes up whenever sheets change; who keeps sheets keeps it beside them. */
    public static final int FORMAT = 7;

    /** More units of d1 or of d2 are refused. */
    public static final int UNIT_LIMIT = 32768;

    /** More strings of d2 are refused. */
    public static final int STRING_LIMIT = 4096;

    /** Bytes of stack of a thread that the reader runs on: docs/MANUAL.md, "Limits", has what it needs. -Xss doesn't change it. */
    static final long STACK = 1 << 21;

    private static final ExecutorService THREADS =
            new ThreadPoolExecutor(0, Integer.MAX_VALUE, 10, TimeUnit.SECONDS, new SynchronousQueue<>(), SheetReader::thread);

    static {
        load();
    }

    private SheetReader() {}

    /**
     * Reads one class from the values of its annotation kotlin.Metadata.
     *
     * @param k 1 if it is absent
     * @param mv absent numbers are 0; those after the third aren't looked at
     * @throws NullPointerException if an array or a string is null; nothing else that is handed in leads to an exception
     */
    public static Answer read(int k, int[] mv, String[] d1, String[] d2) {
        Objects.requireNonNull(mv, "mv");
        Units payload = Units.of("d1", d1, UNIT_LIMIT, Integer.MAX_VALUE);
        Units strings = Units.of("d2", d2, UNIT_LIMIT, STRING_LIMIT);
        return read(k, number(mv, 0), number(mv, 1), number(mv, 2), payload.units, strings.units, strings.ends);
    }

    /**
     * The same from UTF-16 units, as the C function takes them.
     *
     * @param d1 the units of all strings of d1, one after the other
     * @param d2 the same of d2
     * @param ends for each string of d2, how many units of d2 stand before its end
     * @throws NullPointerException if an array is null; nothing else that is handed in leads to an exception
     */
    public static Answer read(int k, int major, int minor, int patch, char[] d1, char[] d2, int[] ends) {
        Objects.requireNonNull(d1, "d1");
        Objects.requireNonNull(d2, "d2");
        Objects.requireNonNull(ends, "ends");
        return await(THREADS.submit(() -> readHere(k, major, minor, patch, d1, d2, ends)));
    }

    /** The same on the thread that calls, which must have enough stack: the virtual machine ends if it hasn't. No array is null. */
    static Answer readHere(int k, int major, int minor, int patch, char[] d1, char[] d2, int[] ends) {
        long[] answer = new long[5];
        byte[] both = call(k, major, minor, patch, d1, d2, ends, answer);
        return new Answer(answer, both);
    }

    /** Writes number, detail, both lengths and the types into answer, and gives the sheet and after it the text. */
    private static native byte[] call(int k, int major, int minor, int patch, char[] d1, char[] d2, int[] ends, long[] answer);

    /**
     * Which strings of d2 the reading of a class falls to. All others may be blanked, as long as the number of strings stays: {@link #read} then gives
     * the same answer.
     *
     * @param k as for {@link #read(int, int[], String[], String[])}
     * @throws NullPointerException if an array or a string is null; nothing else that is handed in leads to an exception
     */
    public static UsedStrings strings(int k, int[] mv, String[] d1, String[] d2) {
        Objects.requireNonNull(mv, "mv");
        Units payload = Units.of("d1", d1, UNIT_LIMIT, Integer.MAX_VALUE);
        Units strings = Units.of("d2", d2, UNIT_LIMIT, STRING_LIMIT);
        return strings(k, number(mv, 0), number(mv, 1), number(mv, 2), payload.units, strings.units, strings.ends);
    }

    /** The same from UTF-16 units, as the C function takes them. */
    public static UsedStrings strings(int k, int major, int minor, int patch, char[] d1, char[] d2, int[] ends) {
        Objects.requireNonNull(d1, "d1");
        Objects.requireNonNull(d2, "d2");
        Objects.requireNonNull(ends, "ends");
        return await(THREADS.submit(() -> {
            long[] answer = new long[3];
            byte[] used = used(k, major, minor, patch, d1, d2, ends, answer);
            return new UsedStrings(answer, used);
        }));
    }

    /** Writes number, detail and count into answer, and gives a byte for each string, none if it is refused. */
    private static native byte[] used(int k, int major, int minor, int patch, char[] d1, char[] d2, int[] ends, long[] answer);

    /**
     * d1 from its old form to the one with the marker. {@link #read} takes both forms.
     *
     * @param d1 the units of all strings of d1, one after the other
     * @throws NullPointerException if it is null; nothing else that is handed in leads to an exception
     */
    public static Conversion oldToNew(char[] d1) {
        return converted(true, d1);
    }

    /** From the form with the marker to the old one. */
    public static Conversion newToOld(char[] d1) {
        return converted(false, d1);
    }

    /** A conversion takes little stack, so it is made on the thread that calls. */
    private static Conversion converted(boolean toNew, char[] d1) {
        Objects.requireNonNull(d1, "d1");
        long[] answer = new long[3];
        char[] units = convert(toNew, d1, answer);
        return new Conversion(answer, units);
    }

    /** Writes number, detail and length into answer, and gives the units. */
    private static native char[] convert(boolean toNew, char[] d1, long[] answer);

    private static int number(int[] version, int at) {
        return at < version.length ? version[at] : 0;
    }

    /** A call takes microseconds, so an interrupt waits for its end; the caller finds it afterwards. */
    private static <T> T await(Future<T> call) {
        boolean interrupted = false;
        try {
            while (true) {
                try {
                    return call.get();
                } catch (InterruptedException e) {
                    interrupted = true;
                } catch (ExecutionException e) {
                    if (e.getCause() instanceof Error) throw (Error) e.getCause();
                    throw new IllegalStateException(e.getCause());
                }
            }
        } finally {
            if (interrupted) Thread.currentThread().interrupt();
        }
    }

    private static Thread thread(Runnable run) {
        Thread thread = new Thread(null, run, "sheet reader", STACK, false);
        thread.setDaemon(true);
        thread.setContextClassLoader(null);
        return thread;
    }

    private static void load() {
        String path = System.getProperty("sheetreader.library");
        try {
            if (path == null) System.loadLibrary("sheet_reader");
            else System.load(path);
        } catch (UnsatisfiedLinkError e) {
            UnsatisfiedLinkError told = new UnsatisfiedLinkError(
                    e.getMessage() + ". host/java/build makes libsheet_reader.so: give its whole path by -Dsheetreader.library=.."
                            + " or its folder by -Djava.library.path=..");
            told.initCause(e);
            throw told;
        }
    }
}
