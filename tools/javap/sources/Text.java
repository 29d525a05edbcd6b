import java.io.Serializable;
import java.util.Objects;
import java.util.function.IntBinaryOperator;
import java.util.stream.Collectors;
import java.util.stream.IntStream;
import java.util.stream.Stream;

/** Generic methods, local classes, interfaces with private types, long code and strings. */
abstract class Text implements Comparable<Text>, Serializable, Cloneable {
    private static final long serialVersionUID = 42L;
    static final String LONG = "0123456789".concat("abc");
    static int counter;
    protected final String text;

    interface Visitor<R, X extends Exception> {
        R word(Word word) throws X;

        R pair(Pair pair) throws X;
    }

    protected Text(String text) {
        this.text = Objects.requireNonNull(text);
        counter++;
    }

    abstract <R, X extends Exception> R visit(Visitor<? extends R, X> visitor) throws X;

    static final class Word extends Text {
        Word(String text) {
            super(text);
        }

        @Override
        <R, X extends Exception> R visit(Visitor<? extends R, X> visitor) throws X {
            return visitor.word(this);
        }
    }

    static final class Pair extends Text {
        final Text left;
        final Text right;

        Pair(Text left, Text right) {
            super(left.text + ' ' + right.text);
            this.left = left;
            this.right = right;
        }

        @Override
        <R, X extends Exception> R visit(Visitor<? extends R, X> visitor) throws X {
            return visitor.pair(this);
        }
    }

    @Override
    public int compareTo(Text other) {
        return text.compareTo(other.text);
    }

    @Override
    @SuppressWarnings("unchecked")
    public Text clone() throws CloneNotSupportedException {
        return (Text) super.clone();
    }

    @Deprecated
    static <T extends Comparable<? super T>> T greatest(Iterable<? extends T> all, T least) {
        T best = least;
        for (T one : all) {
            if (one.compareTo(best) > 0) {
                best = one;
            }
        }
        return best;
    }

    static int calculate(char sign, int a, int b) {
        class Local implements IntBinaryOperator {
            private final int shift;

            Local(int shift) {
                this.shift = shift;
            }

            @Override
            public int applyAsInt(int x, int y) {
                return (x << shift) ^ (y >>> shift) | a & ~b;
            }
        }
        switch (sign) {
            case '+':
                return a + b;
            case '-':
                return a - b;
            case '*':
                return a * b;
            case '/':
                return b == 0 ? Integer.MAX_VALUE : a / b;
            case '%':
                return a % b;
            default:
                return new Local(3).applyAsInt(a, b);
        }
    }

    static int word(String word) {
        switch (word) {
            case "one":
                return 1;
            case "two":
                return 2;
            case "Aa":
            case "BB":
                return 3;
            default:
                return -1;
        }
    }

    static double mix(int i, long l, float f, double d, boolean z, byte b, short s, char c, Object... rest) {
        long sum = i + l + (z ? 1 : 0) + b + s + c;
        float half = f / 2 + (float) d;
        double[] all = {sum, half, d % 3, -f, (long) d, (int) f};
        int place = 0;
        outer:
        while (true) {
            for (double one : all) {
                if (one > sum || one != one) {
                    continue outer;
                }
                if (++place > all.length) {
                    break outer;
                }
            }
            if (rest.length > 0 && rest[0] instanceof Number) {
                return ((Number) rest[0]).doubleValue();
            }
            break;
        }
        return all[place % all.length];
    }

    public static void main(String[] args) {
        Text both = new Pair(new Word("a"), new Word("b"));
        String shown = both.visit(new Visitor<String, RuntimeException>() {
            @Override
            public String word(Word word) {
                return word.text;
            }

            @Override
            public String pair(Pair pair) {
                return '(' + pair.left.visit(this) + ' ' + pair.right.visit(this) + ')';
            }
        });
        String joined = IntStream.rangeClosed(1, 9).mapToObj(Integer::toString).collect(Collectors.joining(","));
        Object[] tables = {new int[2][3], new String[0][], new boolean[] {true}, 'c', 1.5f, 7L};
        System.out.println(shown + joined + tables.length + Stream.of(args).map(String::length).reduce(0, Integer::sum));
    }
}
