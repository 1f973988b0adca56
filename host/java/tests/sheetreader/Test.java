package sheetreader;

import java.io.IOException;
import java.nio.ByteBuffer;
import java.nio.ByteOrder;
import java.nio.file.DirectoryStream;
import java.nio.file.Files;
import java.nio.file.Path;
import java.nio.file.Paths;
import java.util.ArrayList;
import java.util.Arrays;
import java.util.Collections;
import java.util.List;
import java.util.Random;
import java.util.concurrent.Callable;

/**
 * usage: java -Xss256k .. sheetreader.Test EXAMPLES MADE
 *
 * <p>Holds the Java classes to EXAMPLES/NAME.line for each EXAMPLES/NAME.class and to MADE/NAME.line for each MADE/NAME.input, on threads with
 * little stack too; the strings that are told to EXAMPLES/used_strings.txt and MADE/NAME.blanked; then what is handed in wrongly, and damaged
 * class files.
 */
final class Test {
    private static int checks = 0;
    private static int failed = 0;

    public static void main(String[] args) throws Exception {
        List<Case> cases = cases(Paths.get(args[1]));
        cases.addAll(examples(Paths.get(args[0])));
        for (Case one : cases) same(one.name, one.line, line(one.read.call()));
        fromManyThreads(cases);
        nulls();
        lengths();
        longSheet();
        records(Paths.get(args[0]).resolve("Sale.class"));
        projections();
        conversions(Paths.get(args[0]));
        strings(Paths.get(args[0]), Paths.get(args[1]));
        interrupted();
        damaged(Paths.get(args[0]));
        nested();
        System.out.println("host/java: " + checks + " checks, " + failed + " failed");
        System.exit(failed == 0 ? 0 : 1);
    }

    /** Both conversions: what was converted is read alike and comes back; what is refused; the longest. */
    private static void conversions(Path examples) throws Exception {
        for (Path path : paths(examples, ".class")) {
            ClassMetadata metadata = ClassMetadata.of(Files.readAllBytes(path));
            String d1 = String.join("", metadata.d1);
            if (d1.isEmpty()) continue;
            Conversion old = SheetReader.newToOld(d1.toCharArray());
            same(path + " to the old form", "converted: " + (8 * (d1.length() - 1) + 6) / 7 + " units", old.toString());
            same(path + " and back", d1, new String(SheetReader.oldToNew(old.units).units));
            String[] units = {new String(old.units)};
            same(path + " in the old form", line(metadata.read()), line(SheetReader.read(metadata.k, metadata.mv, units, metadata.d2)));
        }
        char[] longest = new char[32768];
        same("the longest", "converted: 37448 units", SheetReader.newToOld(longest).toString());
        Arrays.fill(longest, (char) 1);
        same("the longest of the old form", "converted: 28673 units", SheetReader.oldToNew(longest).toString());
        same("too long", "refused: 1, detail 0", SheetReader.oldToNew(new char[100000]).toString());
        same("empty", "refused: 5, detail 0", SheetReader.oldToNew(new char[0]).toString());
        same("the marker alone", "refused: 5, detail 0", SheetReader.newToOld(new char[1]).toString());
        same("with the marker", "refused: 15, detail 0", SheetReader.oldToNew(new char[2]).toString());
        same("without the marker", "refused: 15, detail 0", SheetReader.newToOld(new char[] {1}).toString());
        same("above 255", "refused: 6, detail 300", SheetReader.oldToNew(new char[] {1, 300, 400}).toString());
        same("a first unit 0", "refused: 16, detail 0", SheetReader.newToOld(new char[] {0, 255}).toString());
        same("one unit", "converted: 1 units", SheetReader.oldToNew(new char[] {1}).toString());
    }

    /** Which strings the readings fall to: of the examples by their indices, of the made inputs by the units that stay. What is refused tells none. */
    private static void strings(Path examples, Path made) throws IOException {
        for (String told : Files.readAllLines(examples.resolve("used_strings.txt"))) {
            String[] parts = told.split(": ");
            ClassMetadata metadata = ClassMetadata.of(Files.readAllBytes(examples.resolve(parts[0] + ".class")));
            UsedStrings used = metadata.strings();
            StringBuilder found = new StringBuilder();
            for (int i = 0; i < used.strings(); i++) if (used.isUsed(i)) found.append(i).append(' ');
            same(parts[0] + ", its strings", parts[1], (used.count == 0 ? "none " : found) + "of " + metadata.d2.length);
        }
        for (Path path : paths(made, ".input")) {
            Input in = new Input(Files.readAllBytes(path));
            UsedStrings used = in.strings();
            Path blanked = path.resolveSibling(path.getFileName().toString().replaceAll("\\.input$", ".blanked"));
            if (Files.exists(blanked)) {
                same(path + ", its strings", new String(new Input(Files.readAllBytes(blanked)).d2), in.kept(used));
            } else {
                String[] line = Files.readString(beside(path, ".input")).split(" ");
                same(path + ", its strings", "refused: " + line[0] + ", detail " + line[1], used.toString());
            }
        }
        same("no strings", "told: 0 of 0 strings", SheetReader.strings(3, new int[0], new String[0], new String[0]).toString());
        same("too many strings", "refused: 2, detail 0", SheetReader.strings(3, 1, 9, 0, new char[0], new char[0], new int[50_000_000]).toString());
    }

    /** A call and the line that is right for it. */
    private static final class Case {
        final String name;
        final String line;
        final Callable<Answer> read;

        Case(String name, Path line, Callable<Answer> read) throws IOException {
            this.name = name;
            this.line = Files.readString(line).trim();
            this.read = read;
        }
    }

    private static List<Case> examples(Path folder) throws IOException {
        List<Case> cases = new ArrayList<>();
        for (Path path : paths(folder, ".class")) {
            ClassMetadata metadata = ClassMetadata.of(Files.readAllBytes(path));
            cases.add(new Case(path.toString(), beside(path, ".class"), metadata::read));
        }
        return cases;
    }

    private static List<Case> cases(Path folder) throws IOException {
        List<Case> cases = new ArrayList<>();
        for (Path path : paths(folder, ".input")) {
            Input in = new Input(Files.readAllBytes(path));
            cases.add(new Case(path.toString(), beside(path, ".input"), in::read));
        }
        return cases;
    }

    private static List<Path> paths(Path folder, String ending) throws IOException {
        List<Path> found = new ArrayList<>();
        try (DirectoryStream<Path> all = Files.newDirectoryStream(folder, "*" + ending)) {
            all.forEach(found::add);
        }
        Collections.sort(found);
        if (found.isEmpty()) throw new IOException("no " + ending + " in " + folder);
        return found;
    }

    private static Path beside(Path path, String ending) {
        String name = path.getFileName().toString();
        return path.resolveSibling(name.substring(0, name.length() - ending.length()) + ".line");
    }

    /** Every case on eight threads at once, several times; the virtual machine is called with a small -Xss. */
    private static void fromManyThreads(List<Case> cases) throws InterruptedException {
        List<Thread> threads = new ArrayList<>();
        List<String> wrong = Collections.synchronizedList(new ArrayList<>());
        for (int t = 0; t < 8; t++) {
            Thread thread = new Thread(() -> {
                for (int round = 0; round < 20; round++) {
                    for (Case one : cases) {
                        try {
                            if (!one.line.equals(line(one.read.call()))) wrong.add(one.name);
                        } catch (Exception | Error e) {
                            wrong.add(one.name + ": " + e);
                        }
                    }
                }
            });
            thread.start();
            threads.add(thread);
        }
        for (Thread thread : threads) thread.join();
        same("eight threads", "[]", wrong.toString());
    }

    private static void nulls() {
        String[] d1 = {""}, d2 = {};
        int[] mv = {1, 9, 0}, ends = {};
        char[] units = {};
        thrown("mv is null", "mv", () -> SheetReader.read(3, null, d1, d2));
        thrown("d1 is null", "d1", () -> SheetReader.read(3, mv, null, d2));
        thrown("d2 is null", "d2", () -> SheetReader.read(3, mv, d1, null));
        thrown("a string of d1 is null", "d1[1]", () -> SheetReader.read(3, mv, new String[] {"", null}, d2));
        thrown("a string of d2 is null", "d2[0]", () -> SheetReader.read(3, mv, d1, new String[] {null}));
        thrown("d1's units are null", "d1", () -> SheetReader.read(3, 1, 9, 0, null, units, ends));
        thrown("d2's units are null", "d2", () -> SheetReader.read(3, 1, 9, 0, units, null, ends));
        thrown("the ends are null", "ends", () -> SheetReader.read(3, 1, 9, 0, units, units, null));
        thrown("a string of d2 is null, of strings", "d2[0]", () -> SheetReader.strings(3, mv, d1, new String[] {null}));
        thrown("the ends are null, of strings", "ends", () -> SheetReader.strings(3, 1, 9, 0, units, units, null));
        thrown("d1 to convert is null", "d1", () -> SheetReader.oldToNew(null));
    }

    private static void lengths() {
        String[] none = {};
        String million = "x".repeat(1_000_000);
        String[] millions = new String[3000]; // together more units than an int can count
        Arrays.fill(millions, million);
        String[] many = new String[100_000];
        Arrays.fill(many, "");
        int[] mv = {1, 9, 0};
        for (int[] version : new int[][] {{}, {1}, {2, 0}, {1, 9, 0, 7}}) number(0, SheetReader.read(3, version, none, none));
        number(4, SheetReader.read(3, new int[] {3}, none, none));
        number(1, SheetReader.read(3, mv, millions, none));
        number(2, SheetReader.read(3, mv, none, millions));
        number(0, SheetReader.read(3, mv, many, none));
        number(2, SheetReader.read(3, mv, none, many));
        number(1, SheetReader.read(3, 1, 9, 0, new char[50_000_000], new char[0], new int[0]));
        number(2, SheetReader.read(3, 1, 9, 0, new char[0], new char[50_000_000], new int[0]));
        number(2, SheetReader.read(3, 1, 9, 0, new char[0], new char[0], new int[50_000_000]));
        number(3, SheetReader.read(3, 1, 9, 0, new char[0], new char[2], new int[] {-1, 2}));
    }

    /** As many constructors as a d1 can hold: far longer than the program's area. */
    private static void longSheet() {
        int constructors = (SheetReader.UNIT_LIMIT - 2) / 2;
        char[] d1 = new char[SheetReader.UNIT_LIMIT];
        for (int i = 2; i < d1.length; i += 2) d1[i] = 8 << 3 | 2;
        Answer answer = SheetReader.read(1, 1, 9, 0, d1, new char[0], new int[0]);
        same("a long sheet", "read: " + (23 + 24 * constructors) + " bytes of sheet, " + 3 * constructors + " of text, 0 types", answer.toString());
        int found = 0;
        for (Records r = answer.records(); r.next();) if (r.kind() == Records.DEFAULT && r.text(1).equals("()V")) found++;
        same("its records", "" + constructors, "" + found);
    }

    private static void records(Path path) throws IOException {
        Answer sale = ClassMetadata.of(Files.readAllBytes(path)).read();
        int[] counts = new int[10];
        List<String> functions = new ArrayList<>();
        for (Records r = sale.records(); r.next();) {
            counts[r.kind()]++;
            if (r.kind() == Records.HEAD) {
                same("the head", "till.Sale 1 4 5", r.text(2) + " " + r.number(14, 2) + " " + r.number(16, 2) + " " + r.number(18, 2));
            }
            if (r.kind() == Records.FUNCTION) functions.add(r.text(1) + r.text(17));
        }
        same("counts of records", "1 1 4 5 0 1", counts[1] + " " + counts[2] + " " + counts[3] + " " + counts[4] + " " + counts[8] + " " + counts[9]);
        same("types", "" + sale.types, "" + counts[Records.TYPE]);
        same("functions", 4, functions.size());
    }

    /** A type's projection stands at its record's end: f(): X<out Y, *>, where neither X nor Y has a name. */
    private static void projections() {
        char[] d1 = {0, 0, 0x1A, 14, 0x10, 0, 0x1A, 10, 0x12, 4, 8, 1, 0x12, 0, 0x12, 2, 8, 3};
        StringBuilder found = new StringBuilder();
        for (Records r = SheetReader.read(2, 1, 9, 0, d1, new char[] {'f'}, new int[] {1}).records(); r.next();) {
            if (r.kind() == Records.TYPE) found.append(r.number(1, 1)).append(r.text(3)).append(r.number(7, 2)).append(' ').append(r.number(9, 1)).append("; ");
        }
        same("projections", "1null2 2; 5null0 1; 5null0 3; ", found.toString());
    }

    private static void interrupted() {
        Thread.currentThread().interrupt();
        number(0, SheetReader.read(3, new int[0], new String[0], new String[0]));
        same("the interrupt is still there", true, Thread.interrupted());
    }

    /** Class files with bytes changed and cut short: an IOException that says why, no metadata, or an answer. */
    private static void damaged(Path folder) throws IOException {
        Random random = new Random(7);
        List<Path> classes = paths(folder, ".class");
        int[] ends = new int[3];
        for (int i = 0; i < 20_000; i++) {
            byte[] bytes = Files.readAllBytes(classes.get(i % classes.size()));
            for (int changes = random.nextInt(8); changes >= 0; changes--) bytes[random.nextInt(bytes.length)] = (byte) random.nextInt(256);
            if (random.nextInt(4) == 0) bytes = Arrays.copyOf(bytes, random.nextInt(bytes.length));
            try {
                ClassMetadata metadata = ClassMetadata.of(bytes);
                ends[metadata == null ? 0 : 1]++;
                if (metadata != null) metadata.read();
            } catch (IOException e) {
                ends[2]++;
                if (e.getMessage() == null) same("damaged class file " + i, "why", null);
            }
        }
        for (int end : ends) same("damaged class files of every kind", true, end > 100);
    }

    /** An annotation whose value nests arrays as deep as bytes can be had. */
    private static void nested() {
        ByteBuffer b = ByteBuffer.allocate(1_000_000);
        b.putInt(0xCAFEBABE).putInt(52).putShort((short) 4);
        for (String s : new String[] {"RuntimeVisibleAnnotations", "Lkotlin/Metadata;", "d1"}) {
            b.put((byte) 1).putShort((short) s.length()).put(s.getBytes());
        }
        b.put(new byte[12]).putShort((short) 1).putShort((short) 1).putInt(b.remaining() - 4);
        b.putShort((short) 1).putShort((short) 2).putShort((short) 1).putShort((short) 3);
        while (b.remaining() >= 3) b.put((byte) '[').putShort((short) 1);
        try {
            ClassMetadata.of(b.array());
            same("nested arrays", "refused", "read");
        } catch (IOException e) {
            same("nested arrays", "an annotation nests too deep", e.getMessage());
        }
    }

    private static void number(int expected, Answer answer) {
        same("number", expected, answer.number);
    }

    private static void thrown(String what, String message, Runnable call) {
        try {
            call.run();
            same(what, "an exception", "none");
        } catch (NullPointerException e) {
            same(what, message, e.getMessage());
        }
    }

    private static void same(String what, Object expected, Object given) {
        checks++;
        if (expected.equals(given)) return;
        failed++;
        System.out.println(what + ": " + cut(given) + " for " + cut(expected));
    }

    private static String cut(Object value) {
        String text = String.valueOf(value);
        return text.length() <= 200 ? text : text.substring(0, 200) + " ..";
    }

    static String line(Answer answer) {
        return answer.number + " " + answer.detail + " " + hex(answer.sheet) + " " + hex(answer.text);
    }

    private static String hex(byte[] bytes) {
        StringBuilder text = new StringBuilder(bytes.length == 0 ? "-" : "");
        for (byte b : bytes) text.append(Character.forDigit(b >> 4 & 15, 16)).append(Character.forDigit(b & 15, 16));
        return text.toString();
    }

    /** The program's input (docs/MANUAL.md, "The program"). */
    static final class Input {
        final int[] head = new int[4];
        final char[] d1;
        final char[] d2;
        final int[] ends;

        Input(byte[] bytes) {
            ByteBuffer in = ByteBuffer.wrap(bytes).order(ByteOrder.LITTLE_ENDIAN);
            for (int i = 0; i < 4; i++) head[i] = in.getInt();
            d1 = units(in);
            d2 = units(in);
            ends = new int[in.getInt()];
            for (int i = 0; i < ends.length; i++) ends[i] = in.getInt();
        }

        private static char[] units(ByteBuffer in) {
            char[] units = new char[in.getInt()];
            for (int i = 0; i < units.length; i++) units[i] = in.getChar();
            return units;
        }

        Answer read() {
            return SheetReader.read(head[0], head[1], head[2], head[3], d1, d2, ends);
        }

        UsedStrings strings() {
            return SheetReader.strings(head[0], head[1], head[2], head[3], d1, d2, ends);
        }

        /** The units of the strings that are used. */
        String kept(UsedStrings used) {
            StringBuilder kept = new StringBuilder();
            for (int i = 0; i < used.strings(); i++) {
                int start = i == 0 ? 0 : ends[i - 1];
                if (used.isUsed(i)) kept.append(d2, start, ends[i] - start);
            }
            return kept.toString();
        }

        Answer readHere() {
            return SheetReader.readHere(head[0], head[1], head[2], head[3], d1, d2, ends);
        }
    }
}
