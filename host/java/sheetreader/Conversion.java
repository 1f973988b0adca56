package sheetreader;

/** What a conversion of d1 answers (docs/MANUAL.md, "Old libraries"). */
public final class Conversion {
    /** 0: converted; 1, 5, 6, 15 or 16: refused, as docs/MANUAL.md tells under "Refusals". 12 doesn't occur: the area is always long enough. */
    public final int number;

    /** Of 6 the unit; else 0. */
    public final int detail;

    /** The units of the converted d1; empty if refused. */
    public final char[] units;

    Conversion(long[] answer, char[] units) {
        number = (int) answer[0];
        detail = (int) answer[1];
        this.units = units;
    }

    public boolean isConverted() {
        return number == 0;
    }

    @Override
    public String toString() {
        return isConverted() ? "converted: " + units.length + " units" : "refused: " + number + ", detail " + detail;
    }
}
