package boot;

import java.util.ArrayList;
import java.util.List;
import java.util.Random;
import java.util.Scanner;

/** Has the mapped classes, given a name each, verified, and compares what their methods answer with what the JDK's do. */
public class Compare {
    static int faults = 0;
    static int compared = 0;

    interface Asked {
        Object ask() throws Throwable;
    }

    /** What is answered or thrown, as a text. Throwables are the same where their classes have one simple name. */
    static String outcome(Asked asked) {
        try {
            Object answer = asked.ask();
            return answer instanceof boot.java.lang.String text ? Natives.real(text)
                    : answer instanceof char[] units ? new String(units) : String.valueOf(answer);
        } catch (Throwable thrown) {
            return "threw " + thrown.getClass().getSimpleName();
        }
    }

    static void same(String about, Asked real, Asked ours) {
        String wanted = outcome(real);
        String found = outcome(ours);
        compared++;
        if (!wanted.equals(found)) {
            System.out.println(about + ": " + wanted + ", but " + found);
            faults++;
        }
    }

    static final String[] TEXTS = {
        "", "a", "b", "ab", "abc", "abd", "aba", "Hello", "Hell", "ello", "null", "\uffff", "\u0000", "caf\u00e9",
        "\ud83d\ude00x", "x\ud83d\ude00", "\ude00\ud83d", "\ud83d", "\ud83d\ud83d\ude00", "\udc00\udc00",
        "a longer text with some blanks in it", "-9223372036854775808",
    };
    static final int[] POINTS = {
        -1, 0, 'a', 'b', 'l', 'o', 0xe9, 0xd83d, 0xde00, 0xffff, 0x10000, 0x1f600, 0x1f601, 0x10ffff, 0x110000,
        Integer.MAX_VALUE, Integer.MIN_VALUE,
    };

    static boot.java.lang.String ours(String text) {
        return Natives.text(text);
    }

    static void texts(String a) {
        boot.java.lang.String o = ours(a);
        same("length", a::length, o::length);
        same("isEmpty", a::isEmpty, o::isEmpty);
        same("hashCode", a::hashCode, o::hashCode);
        same("toCharArray", a::toCharArray, o::toCharArray);
        same("copied", () -> true, () -> o.toCharArray() != o.toCharArray());
        same("toString", () -> true, () -> Natives.toString(o) == o);
        same("intern", () -> true, () -> o.intern() == ours(a).intern());
        same("equals", () -> a.equals(null), () -> o.equals(null));
        same("equals", () -> a.equals((Object) 1), () -> o.equals((Object) 1));
        for (int point : POINTS) {
            same("indexOf " + point, () -> a.indexOf(point), () -> o.indexOf(point));
        }
        for (int at = -2; at < a.length() + 3; at++) {
            int from = at;
            same("charAt", () -> a.charAt(from), () -> o.charAt(from));
            same("substring", () -> a.substring(from), () -> o.substring(from));
            for (int end = -2; end < a.length() + 3; end++) {
                int to = end;
                char[] units = a.toCharArray();
                same("substring", () -> a.substring(from, to), () -> o.substring(from, to));
                same("of some", () -> new String(units, from, to), () -> new boot.java.lang.String(units, from, to));
            }
        }
        same("whole", () -> true, () -> o.substring(0) == o && o.substring(0, a.length()) == o);
    }

    static void pairs(String a, String b) {
        boot.java.lang.String o = ours(a);
        boot.java.lang.String p = ours(b);
        same("equals", () -> a.equals(b), () -> o.equals(p));
        same("compareTo", () -> a.compareTo(b), () -> o.compareTo(p));
        same("compareTo", () -> a.compareTo(b), () -> ((boot.java.lang.Comparable) o).compareTo(p));
        same("concat", () -> a.concat(b), () -> o.concat(p));
        same("concat", () -> b.isEmpty(), () -> o.concat(p) == o);
        same("startsWith", () -> a.startsWith(b), () -> o.startsWith(p));
        same("builder", () -> new StringBuilder(a).append(b).length(),
                () -> new boot.java.lang.StringBuilder(o).append(p).length());
    }

    static void nulls() {
        String none = null;
        boot.java.lang.String ours = null;
        boot.java.lang.String a = ours("a");
        same("concat", () -> "a".concat(none), () -> a.concat(ours));
        same("compareTo", () -> "a".compareTo(none), () -> a.compareTo(ours));
        same("startsWith", () -> "a".startsWith(none), () -> a.startsWith(ours));
        same("of none", () -> new String((char[]) null), () -> new boot.java.lang.String((char[]) null));
        same("of none", () -> new String(), () -> new boot.java.lang.String());
        same("builder", () -> new StringBuilder(none), () -> new boot.java.lang.StringBuilder(ours));
        same("valueOf", () -> String.valueOf((Object) null), () -> boot.java.lang.String.valueOf((Object) null));
        same("valueOf", () -> String.valueOf((Object) List.of(1)), () -> boot.java.lang.String.valueOf(List.of(1)));
        same("compareTo", () -> "threw ClassCastException",
                () -> outcome(() -> ((boot.java.lang.Comparable) a).compareTo(1)));
        same("parse", () -> Integer.parseInt(null), () -> boot.java.lang.Integer.parseInt(null));
        same("parse", () -> Long.parseLong(null), () -> boot.java.lang.Long.parseLong(null));
    }

    static void numbers(long n) {
        int i = (int) n;
        same("valueOf", () -> String.valueOf(n), () -> boot.java.lang.String.valueOf(n));
        same("valueOf", () -> String.valueOf(i), () -> boot.java.lang.String.valueOf(i));
        same("valueOf", () -> String.valueOf((char) i), () -> boot.java.lang.String.valueOf((char) i));
        same("toString", () -> Long.toString(n), () -> boot.java.lang.Long.toString(n));
        same("toString", () -> Integer.toString(i), () -> boot.java.lang.Integer.toString(i));
        same("toHexString", () -> Integer.toHexString(i), () -> boot.java.lang.Integer.toHexString(i));
        same("abs", () -> Math.abs(n), () -> boot.java.lang.Math.abs(n));
        same("abs", () -> Math.abs(i), () -> boot.java.lang.Math.abs(i));
        var l = boot.java.lang.Long.valueOf(n);
        var o = boot.java.lang.Integer.valueOf(i);
        var c = boot.java.lang.Character.valueOf((char) i);
        same("Long", () -> Long.valueOf(n).hashCode() + " " + Long.valueOf(n).intValue() + " " + n,
                () -> l.hashCode() + " " + l.intValue() + " " + l.longValue());
        same("Integer", () -> i + " " + i + " " + (long) i, () -> o.hashCode() + " " + o.intValue() + " " + o.longValue());
        same("Character", () -> (int) (char) i + " " + (char) i, () -> c.hashCode() + " " + c.charValue());
        same("toString", () -> n, () -> Natives.toString(l));
        same("toString", () -> i, () -> Natives.toString(o));
        same("toString", () -> (char) i, () -> Natives.toString(c));
        same("new", () -> true, () -> l != boot.java.lang.Long.valueOf(n) && o != boot.java.lang.Integer.valueOf(i)
                && c != boot.java.lang.Character.valueOf((char) i));
        same("equals", () -> false, () -> l.equals(o) || o.equals(c) || c.equals(o) || l.equals(null) || o.equals(null));
    }

    static void pairs(long n, long m) {
        int i = (int) n;
        int j = (int) m;
        same("min", () -> Math.min(n, m), () -> boot.java.lang.Math.min(n, m));
        same("max", () -> Math.max(n, m), () -> boot.java.lang.Math.max(n, m));
        same("min", () -> Math.min(i, j), () -> boot.java.lang.Math.min(i, j));
        same("max", () -> Math.max(i, j), () -> boot.java.lang.Math.max(i, j));
        same("equals", () -> n == m, () -> boot.java.lang.Long.valueOf(n).equals(boot.java.lang.Long.valueOf(m)));
        same("equals", () -> i == j, () -> boot.java.lang.Integer.valueOf(i).equals(boot.java.lang.Integer.valueOf(j)));
        same("equals", () -> (char) i == (char) j, () -> boot.java.lang.Character.valueOf((char) i)
                .equals(boot.java.lang.Character.valueOf((char) j)));
    }

    static void parses(String text) {
        boot.java.lang.String o = ours(text);
        same("parseInt " + text, () -> Integer.parseInt(text), () -> boot.java.lang.Integer.parseInt(o));
        same("parseLong " + text, () -> Long.parseLong(text), () -> boot.java.lang.Long.parseLong(o));
    }

    /** Two rows of digits came to Unicode after the version of Java SE 8. */
    static boolean isLater(int unit) {
        return unit >= 0x0de6 && unit <= 0x0def || unit >= 0xa9f0 && unit <= 0xa9f9;
    }

    static void digits() {
        for (int unit = 0; unit <= 0xffff; unit++) {
            if (!isLater(unit)) {
                parses("1" + (char) unit);
            }
        }
    }

    static void booleans() {
        for (boolean b : new boolean[] {false, true}) {
            var o = boot.java.lang.Boolean.valueOf(b);
            same("Boolean", () -> Boolean.valueOf(b).hashCode() + " " + b, () -> o.hashCode() + " " + o.booleanValue());
            same("toString", () -> b, () -> Natives.toString(o));
            same("valueOf", () -> b, () -> boot.java.lang.String.valueOf(b));
            same("new", () -> true, () -> o != boot.java.lang.Boolean.valueOf(b));
            same("equals", () -> "true false false", () -> o.equals(boot.java.lang.Boolean.valueOf(b)) + " "
                    + o.equals(boot.java.lang.Boolean.valueOf(!b)) + " " + o.equals(null));
        }
    }

    static void builders(Random random) {
        StringBuilder real = new StringBuilder();
        var ours = new boot.java.lang.StringBuilder();
        for (int i = 0; i < 200; i++) {
            String text = TEXTS[random.nextInt(TEXTS.length)];
            int n = random.nextInt() >> random.nextInt(32);
            long m = random.nextLong() >> random.nextInt(64);
            real.append(text).append(n).append(m).append((char) n).append(n > 0).append((Object) null).append((String) null);
            ours.append(ours(text)).append(n).append(m).append((char) n).append(n > 0).append((Object) null)
                    .append((boot.java.lang.String) null);
            same("length", real::length, ours::length);
            same("toString", real::toString, () -> Natives.toString(ours));
        }
        same("append", () -> real.append((Object) "x").toString(), () -> Natives.toString(ours.append((Object) ours("x"))));
        same("append", () -> true, () -> ours.append(1) == ours);
    }

    /** What is told by one without a message and by one with a message. */
    static String toldByReal(Class<?> c) {
        return outcome(() -> {
            Throwable none = (Throwable) c.getConstructor().newInstance();
            Throwable told = (Throwable) c.getConstructor(String.class).newInstance("why");
            return none + " " + none.getMessage() + " " + told + " " + told.getMessage() + " " + told.getCause();
        });
    }

    static String toldByOurs(Class<?> c) {
        return outcome(() -> {
            var none = (boot.java.lang.Throwable) c.getConstructor().newInstance();
            var told = (boot.java.lang.Throwable) c.getConstructor(boot.java.lang.String.class).newInstance(ours("why"));
            String texts = Natives.real(Natives.toString(none)) + " " + Natives.real(none.getMessage()) + " "
                    + Natives.real(Natives.toString(told)) + " " + Natives.real(told.getMessage());
            return texts.replace("boot.java.", "java.") + " " + told.getCause();
        });
    }

    static void throwables(List<Class<?>> classes) throws ClassNotFoundException {
        for (Class<?> c : classes) {
            if (boot.java.lang.Throwable.class.isAssignableFrom(c) && !c.getSimpleName().equals("VirtualMachineError")) {
                Class<?> real = Class.forName(c.getName().substring("boot.".length()));
                same(c.getName(), () -> toldByReal(real), () -> toldByOurs(c));
            }
        }
        var cause = new boot.java.lang.Error();
        var caused = new boot.java.lang.Throwable(ours("why"), cause);
        same("cause", () -> true, () -> caused.getCause() == cause && Natives.real(caused.getMessage()).equals("why"));
    }

    /** The constants are made by reflection: javac would find that their toString has another result than Object's. */
    static Object constant(String name, String text, int ordinal) throws ReflectiveOperationException {
        return Class.forName("boot." + name).getConstructor(boot.java.lang.String.class, int.class)
                .newInstance(ours(text), ordinal);
    }

    static void enums() throws ReflectiveOperationException {
        var red = (boot.java.lang.Enum) constant("Red", "RED", 0);
        var green = (boot.java.lang.Enum) constant("Colour", "GREEN", 2);
        var round = (boot.java.lang.Enum) constant("Shape", "ROUND", 0);
        same("name", () -> "RED 0 GREEN 2", () -> Natives.real(red.name()) + " " + red.ordinal() + " "
                + Natives.real(Natives.toString(green)) + " " + green.ordinal());
        same("compareTo", () -> "-2 2 0", () -> red.compareTo(green) + " " + green.compareTo(red) + " "
                + ((boot.java.lang.Comparable) red).compareTo(red));
        same("compareTo", () -> "threw ClassCastException", () -> outcome(() -> red.compareTo(round)));
        same("equals", () -> "true false false", () -> red.equals(red) + " " + red.equals(round) + " " + red.equals(null));
        same("hashCode", () -> System.identityHashCode(red), red::hashCode);
    }

    static void objects() {
        var o = new boot.java.lang.Object();
        same("toString", o::toString, () -> Natives.toString(o));
        same("toString", o::toString, () -> boot.java.lang.String.valueOf(o));
        same("equals", () -> "true false false", () -> o.equals(o) + " " + o.equals(1) + " " + o.equals(null));
        for (Class<?> c : new Class<?>[] {String.class, Runnable.class, int[].class, String[][].class, Object.class}) {
            var ours = Natives.classOf(c);
            same("Class", c::toString, () -> Natives.toString(ours));
            same("Class", () -> c.getName() + c.isArray() + c.isInterface(),
                    () -> Natives.real(ours.getName()) + ours.isArray() + ours.isInterface());
            same("Class", () -> false, ours::desiredAssertionStatus);
        }
    }

    static void prints() {
        var out = boot.java.lang.System.out;
        out.print(ours("text"));
        out.print((boot.java.lang.String) null);
        out.print((Object) null);
        out.print((Object) ours("o"));
        out.print(-12);
        out.print(1L << 40);
        out.print('c');
        out.print(true);
        out.println();
        out.println(ours("text"));
        out.println((boot.java.lang.String) null);
        out.println((Object) ours("o"));
        out.println(7);
        out.println(-8L);
        out.println('d');
        out.println(false);
        out.flush();
        boot.java.lang.System.err.print(ours(""));
        same("prints", () -> "1[text]1[null]1[null]1[o]1[-12]1[1099511627776]1[c]1[true]1[\n]1[text]1[\n]1[null]1[\n]"
                + "1[o]1[\n]1[7]1[\n]1[-8]1[\n]1[d]1[\n]1[false]1[\n]2[]", Natives.WRITTEN::toString);
    }

    static List<Class<?>> verified() throws ClassNotFoundException {
        List<Class<?>> classes = new ArrayList<>();
        Scanner names = new Scanner(System.in);
        while (names.hasNextLine()) {
            classes.add(Class.forName(names.nextLine(), true, Compare.class.getClassLoader()));
        }
        return classes;
    }

    static void numbers(Random random) {
        List<Long> numbers = new ArrayList<>();
        for (int shift = 0; shift < 64; shift++) {
            numbers.add(1L << shift);
            numbers.add((1L << shift) - 1);
            numbers.add(-(1L << shift) - 1);
            numbers.add(random.nextLong() >> shift);
        }
        for (long n : numbers) {
            numbers(n);
            parses(n + "");
            parses("+" + n);
            parses(n + "0");
            parses(Long.toUnsignedString(n));
            for (long m : numbers) {
                pairs(n, m);
            }
        }
    }

    public static void main(String[] args) throws Throwable {
        List<Class<?>> classes = verified();
        Random random = new Random(8);
        for (String a : TEXTS) {
            texts(a);
            parses(a);
            for (String b : TEXTS) {
                pairs(a, b);
            }
        }
        nulls();
        numbers(random);
        for (String text : "+ - +- -+ ++1 --1 1- 1+ 00 -0 +0 007 1_0 0x1 \u0661\u0662 -\uff11 2147483648 -2147483649".split(" ")) {
            parses(text);
        }
        digits();
        booleans();
        builders(random);
        throwables(classes);
        enums();
        objects();
        prints();
        System.out.println(classes.size() + " classes verified, " + compared + " answers compared");
        System.exit(faults == 0 && classes.size() == 54 ? 0 : 1);
    }
}
