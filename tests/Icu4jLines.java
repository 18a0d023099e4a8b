// Prints what ICU for Java makes of its data, a line each: every resource of every bundle, and for
// each locale names, numbers, dates, units, zones, collation keys and spelled numbers.
// tests/icu4j.py runs this program over two sets of data, and compares the lines.
import com.ibm.icu.text.*;
import com.ibm.icu.util.Currency;
import com.ibm.icu.util.Measure;
import com.ibm.icu.util.MeasureUnit;
import com.ibm.icu.util.TimeZone;
import com.ibm.icu.util.ULocale;
import com.ibm.icu.util.UResourceBundle;
import com.ibm.icu.util.UResourceTypeMismatchException;
import com.ibm.icu.util.VersionInfo;
import java.io.*;
import java.nio.file.*;
import java.util.Arrays;
import java.util.Date;
import java.util.MissingResourceException;

public class Icu4jLines {
    static final PrintStream OUT = new PrintStream(
        new BufferedOutputStream(new FileOutputStream(FileDescriptor.out), 1 << 20));
    static final String DATA =
        "com/ibm/icu/impl/data/icudt" + VersionInfo.ICU_VERSION.getMajor() + "b";
    static final Date WHEN = new Date(1234567890123L);
    static final String[] LANGUAGES = {"de", "ja", "sr", "zu"};
    static final String[] REGIONS = {"DE", "JP", "RS", "419"};
    static final String[] CURRENCIES = {"EUR", "JPY", "USD"};
    static final MeasureUnit[] UNITS = {MeasureUnit.METER, MeasureUnit.DAY, MeasureUnit.LITER};
    static final String[] ZONES = {"Europe/Berlin", "Asia/Tokyo", "America/Lima"};
    static final String[] WORDS = {"cote", "coté", "Öl", "zebra", "ß", "дом", "あ", "中"};

    static void line(Object subject, String value) {
        OUT.println(subject + ": " + value.replace("\n", "\\n"));
    }

    static void bundle(String path, UResourceBundle at) {
        switch (at.getType()) {
            case UResourceBundle.STRING -> line(path, at.getString());
            case UResourceBundle.INT -> line(path, "" + at.getInt());
            case UResourceBundle.INT_VECTOR -> line(path, Arrays.toString(at.getIntVector()));
            case UResourceBundle.BINARY -> line(path, binary(at));
            default -> {
                line(path, at.getType() == UResourceBundle.TABLE ? "table" : "array");
                for (int i = 0; i < at.getSize(); i++) {
                    member(path, at, i);
                }
            }
        }
    }

    static void member(String path, UResourceBundle at, int i) {
        try {
            UResourceBundle inside = at.get(i);
            bundle(path + "/" + (inside.getKey() == null ? i : inside.getKey()), inside);
        } catch (MissingResourceException | UResourceTypeMismatchException e) {
            line(path + "/" + i, "no resource");
        }
    }

    static String binary(UResourceBundle at) {
        java.nio.ByteBuffer bytes = at.getBinary();
        byte[] all = new byte[bytes.remaining()];
        bytes.get(all);
        return all.length + " bytes, " + Arrays.hashCode(all);
    }

    static void names(ULocale l) {
        LocaleDisplayNames names = LocaleDisplayNames.getInstance(l);
        for (String code : LANGUAGES) {
            line(l + " language " + code, "" + names.languageDisplayName(code));
        }
        for (String code : REGIONS) {
            line(l + " region " + code, "" + names.regionDisplayName(code));
        }
        TimeZoneNames zones = TimeZoneNames.getInstance(l);
        for (String zone : ZONES) {
            line(l + " zone " + zone, "" + zones.getDisplayName(
                zone, TimeZoneNames.NameType.LONG_STANDARD, WHEN.getTime()));
            line(l + " city " + zone, "" + zones.getExemplarLocationName(zone));
        }
    }

    static void numbers(ULocale l) {
        line(l + " number", NumberFormat.getInstance(l).format(-1234567.891));
        line(l + " percent", NumberFormat.getPercentInstance(l).format(0.25));
        line(l + " scientific", NumberFormat.getScientificInstance(l).format(12345));
        line(l + " spelled",
            new RuleBasedNumberFormat(l, RuleBasedNumberFormat.SPELLOUT).format(1234));
        for (String code : CURRENCIES) {
            Currency currency = Currency.getInstance(code);
            NumberFormat format = NumberFormat.getCurrencyInstance(l);
            format.setCurrency(currency);
            line(l + " money " + code, format.format(12.5));
            line(l + " currency " + code, currency.getName(l, Currency.LONG_NAME, new boolean[1]));
        }
        for (MeasureFormat.FormatWidth width : MeasureFormat.FormatWidth.values()) {
            MeasureFormat format = MeasureFormat.getInstance(l, width);
            for (MeasureUnit unit : UNITS) {
                line(l + " " + width + unit.getSubtype(), format.format(new Measure(2, unit)));
            }
        }
    }

    static void texts(ULocale l) {
        for (int style = 0; style < 4; style++) {
            DateFormat format = DateFormat.getDateTimeInstance(style, style, l);
            format.setTimeZone(TimeZone.getTimeZone("Europe/Berlin"));
            line(l + " date " + style, format.format(WHEN));
        }
        Collator collator = Collator.getInstance(l);
        for (String word : WORDS) {
            byte[] key = collator.getCollationKey(word).toByteArray();
            line(l + " key " + word, Arrays.toString(key));
        }
        BreakIterator breaks = BreakIterator.getWordInstance(l);
        breaks.setText("One two. 三四五 สวัสดี");
        StringBuilder places = new StringBuilder();
        while (breaks.next() != BreakIterator.DONE) {
            places.append(breaks.current()).append(' ');
        }
        line(l + " breaks", places.toString());
    }

    static void bundle(String path) {
        int slash = path.lastIndexOf('/');
        String base = slash < 0 ? DATA : DATA + "/" + path.substring(0, slash);
        ClassLoader loader = Icu4jLines.class.getClassLoader();
        try {
            bundle(path, UResourceBundle.getBundleInstance(
                base, path.substring(slash + 1), loader));
        } catch (RuntimeException e) {
            line(path, e.getClass().getName());
        }
    }

    // the word is a file of the bundles' paths below the data, such as `curr/de`
    public static void main(String[] words) throws IOException {
        for (String path : Files.readAllLines(Paths.get(words[0]))) {
            bundle(path);
        }
        for (ULocale l : ULocale.getAvailableLocales()) {
            names(l);
            numbers(l);
            texts(l);
        }
        OUT.flush();
    }
}
