package sheetreader;

import java.util.Arrays;
import java.util.Objects;

/**
 * Strings as the reader takes them: their UTF-16 units one after the other, and where each string ends. What is past a limit by more than one
 * unit or string is left out, since the reader refuses it without looking there; so memory doesn't grow with what is refused.
 */
final class Units {
    final char[] units;
    final int[] ends;

    private Units(char[] units, int[] ends) {
        this.units = units;
        this.ends = ends;
    }

    static Units of(String name, String[] strings, int unitLimit, int stringLimit) {
        Objects.requireNonNull(strings, name);
        for (int i = 0; i < strings.length; i++) Objects.requireNonNull(strings[i], name + "[" + i + "]");
        int[] ends = new int[strings.length <= stringLimit ? strings.length : stringLimit + 1];
        char[] units = new char[256];
        int count = 0;
        for (int i = 0; i < ends.length; i++) {
            int taken = Math.min(strings[i].length(), unitLimit + 1 - count);
            if (count + taken > units.length) units = Arrays.copyOf(units, Math.max(count + taken, 2 * units.length));
            strings[i].getChars(0, taken, units, count);
            count += taken;
            ends[i] = count;
        }
        return new Units(Arrays.copyOf(units, count), ends);
    }
}
