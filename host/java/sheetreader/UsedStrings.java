package sheetreader;

/** Which strings of d2 the reading of a class falls to (docs/MANUAL.md, "Strings that may be blanked"). */
public final class UsedStrings {
    /** 0: told; 1 to 17: refused, as docs/MANUAL.md tells under "Refusals", and nothing is told. 11 and 12 don't occur. */
    public final int number;

    /** Of 6 the unit; of 7, 8, 9, 13, 14 and 17 the offset, among the payload's bytes, of what broke; else 0. */
    public final int detail;

    /** How many strings the reading falls to, 0 if refused. */
    public final int count;

    private final byte[] used;

    /** From the three numbers of the C function's answer, and a byte for each string, none if refused. */
    UsedStrings(long[] answer, byte[] used) {
        number = (int) answer[0];
        detail = (int) answer[1];
        count = (int) answer[2];
        this.used = used;
    }

    public boolean isTold() {
        return number == 0;
    }

    /** How many strings d2 has, 0 if refused. */
    public int strings() {
        return used.length;
    }

    /** Whether the reading falls to the string with this index; if not, it may be blanked. */
    public boolean isUsed(int index) {
        return used[index] == 1;
    }

    @Override
    public String toString() {
        return isTold() ? "told: " + count + " of " + used.length + " strings" : "refused: " + number + ", detail " + detail;
    }
}
