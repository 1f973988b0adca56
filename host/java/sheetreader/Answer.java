package sheetreader;

import java.util.Arrays;

/** What the reader answers for one class (docs/MANUAL.md, "What comes out"). */
public final class Answer {
    /** 0: read; 1 to 17: refused, as docs/MANUAL.md tells under "Refusals". 12 doesn't occur: the area is long enough for every sheet. */
    public final int number;

    /** Of 6 the unit; of 7, 8, 9, 13, 14 and 17 the offset, among the payload's bytes, of what broke; else 0. */
    public final int detail;

    /** The type records on the sheet, 0 if refused. */
    public final int types;

    /** The sheet; empty if refused. {@link Records} goes through it. */
    public final byte[] sheet;

    /** The texts that the sheet's refs cut; empty if refused. */
    public final byte[] text;

    /** From the five numbers of the C function's answer, and the sheet and after it the text. */
    Answer(long[] answer, byte[] both) {
        number = (int) answer[0];
        detail = (int) answer[1];
        types = (int) answer[4];
        sheet = Arrays.copyOfRange(both, 0, (int) answer[2]);
        text = Arrays.copyOfRange(both, (int) answer[2], both.length);
    }

    public boolean isRead() {
        return number == 0;
    }

    /** The records of the sheet; none if refused. */
    public Records records() {
        return new Records(this);
    }

    @Override
    public String toString() {
        return isRead() ? "read: " + sheet.length + " bytes of sheet, " + text.length + " of text, " + types + " types"
                : "refused: " + number + ", detail " + detail;
    }
}
