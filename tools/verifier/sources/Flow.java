package check;

import java.io.Closeable;
import java.io.IOException;

/** Branches, loops, switches, exceptions and monitors. */
public class Flow implements Closeable {
    private static final Object LOCK = new Object();
    private static int counter;
    private long[][] grid = new long[4][];
    private Object[] things = {"a", 1, 'c', 2.5f, null, new int[] {1, 2}};
    volatile boolean closed;

    static {
        int seed = 17;
        for (int i = 0; i < 5; i++) {
            seed = seed * 31 + i;
        }
        counter = seed;
    }

    static int sign(long n) {
        return n < 0 ? -1 : n == 0 ? 0 : 1;
    }

    static String kind(int n) {
        switch (n) {
            case 0:
                return "zero";
            case 1:
            case 2:
                return "small";
            case 10_000:
                return "large";
            case -5:
                break;
            default:
                return n > 100 ? "big" : "other";
        }
        return "minus five";
    }

    static int word(String text) {
        switch (text) {
            case "one":
                return 1;
            case "two":
                return 2;
            case "Aa":
                return 3;
            case "BB":
                return 4;
            default:
                return text.length();
        }
    }

    static int loops(int[] numbers) {
        int sum = 0;
        outer:
        for (int i = 0; i < numbers.length; i++) {
            int left = numbers[i];
            do {
                if (left % 7 == 3) {
                    continue outer;
                }
                if (left > 1_000_000) {
                    break outer;
                }
                sum += left & 0xff;
                left >>>= 1;
            } while (left != 0);
        }
        return sum;
    }

    static long mixed(byte b, short s, char c, int i, long l, float f, double d, boolean z) {
        b += 1;
        s <<= 2;
        c ^= 0x55;
        i = -i;
        l = l * 3 - ~l;
        f = f % 2 + i;
        d = d / f - l;
        z = !z || d > f && l >= i;
        return b + s + c + i + l + (long) f + (int) d + (z ? 1L : 0L);
    }

    static int guarded(String text) {
        int result = 0;
        try {
            result = Integer.parseInt(text);
            if (result < 0) {
                throw new IllegalStateException(text);
            }
        } catch (NumberFormatException | NullPointerException fault) {
            result = -1;
        } catch (IllegalStateException fault) {
            return fault.getMessage().length();
        } finally {
            counter += result;
        }
        return result;
    }

    static int nested(Object o) {
        try {
            try {
                return o.hashCode();
            } finally {
                counter++;
            }
        } catch (RuntimeException fault) {
            try {
                throw new Error(fault);
            } catch (Error error) {
                return error.getCause() == fault ? 1 : 0;
            }
        }
    }

    long locked(int i) {
        synchronized (LOCK) {
            if (closed) {
                return 0;
            }
            synchronized (this) {
                counter += i;
            }
            return counter;
        }
    }

    synchronized void fill() {
        for (int i = 0; i < grid.length; i++) {
            grid[i] = new long[i + 1];
            for (int j = 0; j <= i; j++) {
                grid[i][j] = (long) i << j;
                grid[i][j]++;
                grid[i][j] -= j;
            }
        }
        int[][][] cube = new int[2][3][];
        cube[1][2] = new int[] {7};
        cube[1][2][0] <<= grid.length;
        char[] letters = "text".toCharArray();
        letters[0]++;
        boolean[] flags = new boolean[letters.length];
        flags[1] |= letters[0] == 'u';
        byte[] bytes = {1, -1};
        bytes[0] ^= bytes[1];
        short[] shorts = {(short) bytes[0]};
        shorts[0] *= 2;
        float[] floats = {1f};
        floats[0] /= shorts[0];
        double[] doubles = new double[] {floats[0]};
        doubles[0] += cube[1][2][0];
    }

    static void resources() throws IOException {
        try (Flow one = new Flow(); Flow two = new Flow()) {
            one.fill();
            two.locked(3);
        }
    }

    int count(Class<?> type) {
        int count = 0;
        for (Object thing : things) {
            if (thing instanceof String && ((String) thing).length() > 0 || type.isInstance(thing)) {
                count++;
            } else if (thing instanceof int[]) {
                count += ((int[]) thing).clone().length;
            }
        }
        return count;
    }

    static Object pick(int n) {
        Object chosen = n > 3 ? (Object) "text" : n > 2 ? Integer.valueOf(n) : new StringBuilder().append(n);
        return chosen == null ? LOCK : chosen;
    }

    static long sum(long... numbers) {
        long sum = 0;
        for (long number : numbers) {
            sum += number;
        }
        return sum;
    }

    @Override
    public void close() throws IOException {
        assert !closed : "closed twice";
        closed = true;
    }

    public static void main(String[] args) throws Exception {
        resources();
        Flow flow = new Flow();
        System.out.println(kind(args.length) + word("two") + loops(new int[] {5, 6}) + guarded("x") + nested(null));
        System.out.println(flow.count(Integer.class) + sum(1, 2, 3) + mixed((byte) 1, (short) 2, 'c', 4, 5L, 6f, 7d, true));
        System.out.println(pick(4));
        flow.close();
    }
}
