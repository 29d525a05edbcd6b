import java.lang.annotation.ElementType;
import java.lang.annotation.Retention;
import java.lang.annotation.RetentionPolicy;
import java.lang.annotation.Target;
import java.util.ArrayList;
import java.util.Comparator;
import java.util.HashMap;
import java.util.List;
import java.util.Map;
import java.util.concurrent.atomic.AtomicLong;
import java.util.function.BiFunction;
import java.util.function.Function;
import java.util.function.Supplier;

/** Nested and inner classes, enums, generics, annotations, lambdas and exceptions. */
public class Bank<K extends Comparable<K>> implements Iterable<Bank.Account<K>> {
    static final int LIMIT = 1_000_000;
    static final long SEED = 0x1234_5678_9abc_def0L;
    static final float RATE = 0.25f;
    static final double PI = Math.PI;
    static final String NAME = "bank \u00fc \ud83d\ude00 \u0000";
    static final char SIGN = '\u20ac';
    static final byte LEVEL = -7;
    static final short YEAR = 2020;
    static final boolean OPEN = true;
    final int unwritten = 17;
    private transient volatile int hits;
    protected static List<String> log = new ArrayList<>();

    @Retention(RetentionPolicy.RUNTIME)
    @Target({ElementType.METHOD, ElementType.PARAMETER, ElementType.TYPE, ElementType.TYPE_USE})
    @interface Audited {
        String value() default "none";
        int[] levels() default {1, 2, 3};
        Class<?> type() default Object.class;
        Kind kind() default Kind.SAVING;
    }

    enum Kind {
        SAVING(0.5) {
            @Override
            double interest(double sum) {
                return sum * rate;
            }
        },
        LOAN(7.5) {
            @Override
            double interest(double sum) {
                return -sum * rate / 100;
            }
        };

        final double rate;

        Kind(double rate) {
            this.rate = rate;
        }

        abstract double interest(double sum);
    }

    interface Rule<T> {
        boolean allows(T value);

        default Rule<T> and(Rule<? super T> other) {
            return value -> allows(value) && other.allows(value);
        }

        static <T> Rule<T> all() {
            return value -> true;
        }
    }

    static class Account<K> {
        private final K key;
        private long cents;

        Account(K key, long cents) {
            this.key = key;
            this.cents = cents;
        }

        class Move implements Comparable<Move> {
            final long amount;

            Move(long amount) {
                this.amount = amount;
                cents += amount;
            }

            @Override
            public int compareTo(Move other) {
                return Long.compare(amount, other.amount);
            }
        }

        synchronized strictfp double share(double parts) {
            return cents / parts;
        }
    }

    private final Map<K, Account<K>> accounts = new HashMap<>();
    private final AtomicLong next = new AtomicLong();

    static {
        log.add("opened");
        for (int i = 0; i < 3; i++) {
            log.add("row " + i);
        }
    }

    @Audited(value = "open", levels = {4, 5})
    public Account<K> open(@Audited K key, long cents) throws IllegalStateException {
        if (accounts.containsKey(key)) {
            throw new IllegalStateException("there is one of " + key);
        }
        Account<K> account = new Account<>(key, cents);
        accounts.put(key, account);
        return account;
    }

    @Override
    public java.util.Iterator<Account<K>> iterator() {
        return new java.util.Iterator<Account<K>>() {
            private final java.util.Iterator<Account<K>> inner = accounts.values().iterator();

            @Override
            public boolean hasNext() {
                return inner.hasNext();
            }

            @Override
            public Account<K> next() {
                hits++;
                return inner.next();
            }
        };
    }

    int find(Object what, int... more) {
        try {
            switch (more.length) {
                case 0:
                    return what.hashCode();
                case 1:
                    return more[0];
                case 1000:
                    return -1;
                default:
                    return more[more.length - 1] + (int) next.incrementAndGet();
            }
        } catch (NullPointerException | ArrayIndexOutOfBoundsException e) {
            log.add(e.toString());
            return -2;
        } finally {
            synchronized (this) {
                hits += 2;
            }
        }
    }

    static String name(Kind kind) {
        switch (kind) {
            case SAVING:
                return "s";
            default:
                return "l";
        }
    }

    native int balance(String key, double[][] table, long[] sums);

    static long[][][] cube(int n) {
        long[][][] cube = new long[n][n + 1][];
        cube[0][0] = new long[] {1L, 2L, Long.MAX_VALUE};
        return cube;
    }

    public static void main(String[] args) throws Exception {
        Bank<String> bank = new Bank<>();
        Account<String> account = bank.open("a", 500);
        Account<String>.Move move = account.new Move(12);
        Function<Integer, Function<Integer, Integer>> add = a -> b -> a + b + (int) move.amount;
        Supplier<List<String>> made = ArrayList::new;
        BiFunction<String, Integer, Character> at = String::charAt;
        Comparator<Account<String>> order = Comparator.comparing((Account<String> a) -> a.cents).reversed();
        try (AutoCloseable closing = () -> log.add("closed")) {
            log.add(add.apply(1).apply(2) + made.get().size() + "" + at.apply("xyz", 1) + order + closing);
        }
        for (Account<String> each : bank) {
            log.add(String.valueOf(each.share(3.0)) + Kind.valueOf("LOAN").interest(2.0) + name(Kind.SAVING));
        }
        Rule<String> rule = Rule.<String>all().and(text -> text.length() > 2);
        assert rule.allows("long") : "rule";
        System.out.println(log);
    }
}
