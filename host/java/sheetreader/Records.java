package sheetreader;

import java.nio.charset.StandardCharsets;

/**
 * The records of a sheet, one after the other (docs/MANUAL.md, "The sheet"):
 *
 * <pre>
 * for (Records r = answer.records(); r.next();) if (r.kind() == Records.FUNCTION) System.out.println(r.text(1) + r.text(17));
 * </pre>
 */
public final class Records {
    public static final int HEAD = 1;
    public static final int CONSTRUCTOR = 2;
    public static final int FUNCTION = 3;
    public static final int PROPERTY = 4;
    public static final int PARAMETER = 5;
    public static final int TYPE = 6;
    public static final int DEFAULT = 7;
    public static final int ALIAS = 8;
    public static final int ALIASES = 9;

    /** bytes of a record of each kind, from kind 1 on */
    private static final int[] LENGTHS = {20, 19, 24, 40, 6, 10, 5, 13, 3};

    private static final long ABSENT = 0xFFFFFFFFL;

    private final Answer answer;
    private int at = 0;
    private int after = 0;

    Records(Answer answer) {
        this.answer = answer;
    }

    /** Goes to the next record; false if there is none. */
    public boolean next() {
        at = after;
        if (at == answer.sheet.length) return false;
        after = at + LENGTHS[kind() - 1];
        return true;
    }

    public int kind() {
        return answer.sheet[at];
    }

    /** The number at an offset from the record's first byte, of 1, 2, 4 or 8 bytes. */
    public long number(int offset, int width) {
        long n = 0;
        for (int i = width - 1; i >= 0; i--) n = n << 8 | answer.sheet[at + offset + i] & 0xFF;
        return n;
    }

    /** The text of the ref at an offset from the record's first byte; null if it is absent. */
    public String text(int offset) {
        long ref = number(offset, 4);
        if (ref == ABSENT) return null;
        return new String(answer.text, (int) ref & 0xFFFF, (int) (ref >> 16), StandardCharsets.UTF_8);
    }
}
