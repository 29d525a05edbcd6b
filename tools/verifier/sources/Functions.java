package check;

import java.util.Arrays;
import java.util.List;
import java.util.concurrent.Callable;
import java.util.function.BiFunction;
import java.util.function.Function;
import java.util.function.IntBinaryOperator;
import java.util.function.Supplier;
import java.util.stream.Collectors;

/** Lambdas, method references and generic methods. */
public class Functions {
    private final int base;

    Functions(int base) {
        this.base = base;
    }

    @FunctionalInterface
    interface Thrower<E extends Exception> {
        void run() throws E;
    }

    static <E extends Exception> boolean fails(Thrower<E> thrower) {
        try {
            thrower.run();
            return false;
        } catch (Exception fault) {
            return true;
        }
    }

    Function<Integer, Integer> adder() {
        return n -> n + base;
    }

    Supplier<Functions> twice() {
        return () -> new Functions(base * 2);
    }

    static <A, B, C> Function<A, C> compose(Function<? super A, ? extends B> f, Function<? super B, ? extends C> g) {
        return a -> g.apply(f.apply(a));
    }

    static IntBinaryOperator larger = (a, b) -> {
        if (a > b) {
            return a;
        }
        return b;
    };

    static List<String> shout(List<String> words) {
        return words.stream().filter(word -> !word.isEmpty()).map(String::toUpperCase).sorted().collect(Collectors.toList());
    }

    static long wide(long a, double b) {
        BiFunction<Long, Double, Long> f = (x, y) -> x + Math.round(y);
        return f.apply(a, b);
    }

    Callable<String> local(final String text) {
        class Local implements Callable<String> {
            final char first = text.isEmpty() ? '-' : text.charAt(0);

            @Override
            public String call() {
                return first + text + base;
            }
        }
        return new Local();
    }

    static int fold(int[] numbers) {
        return Arrays.stream(numbers).map(n -> n * n).reduce(0, Integer::sum);
    }

    public static void main(String[] args) throws Exception {
        Functions f = new Functions(args.length);
        System.out.println(compose(f.adder(), String::valueOf).apply(3) + f.twice().get().base + larger.applyAsInt(1, 2));
        System.out.println(shout(Arrays.asList("a", "", "b")) + f.local("x").call() + wide(1, 2.5) + fold(new int[] {1, 2}));
        System.out.println(fails(() -> Integer.parseInt("x")));
    }
}
