package boot;

import java.util.HashMap;
import java.util.Map;

/** What the mapped classes have from the machine, and how texts of theirs and of the JDK become one another. */
public class Natives {
    static final Map<String, boot.java.lang.String> INTERNED = new HashMap<>();
    static final Map<Class<?>, boot.java.lang.Class> CLASSES = new HashMap<>();

    /** What was written: the stream and the text of each call. */
    static final StringBuilder WRITTEN = new StringBuilder();

    public static boot.java.lang.String text(String text) {
        return text == null ? null : new boot.java.lang.String(text.toCharArray());
    }

    public static String real(boot.java.lang.String text) {
        return text == null ? null : new String(text.toCharArray());
    }

    public static boot.java.lang.Class classOf(Class<?> c) {
        return CLASSES.computeIfAbsent(c, real -> {
            boot.java.lang.Class made = new boot.java.lang.Class();
            made.real = real;
            return made;
        });
    }

    static Class<?> realOf(Object c) {
        return ((boot.java.lang.Class) c).real;
    }

    public static boot.java.lang.Class getClass(Object o) {
        return classOf(o.getClass());
    }

    /** The toString of a mapped class, or that of the JDK. */
    public static boot.java.lang.String toString(Object o) {
        for (var method : o.getClass().getMethods()) {
            if (method.getName().equals("toString") && method.getParameterCount() == 0
                    && method.getReturnType() == boot.java.lang.String.class) {
                try {
                    return (boot.java.lang.String) method.invoke(o);
                } catch (ReflectiveOperationException e) {
                    throw new IllegalStateException(e);
                }
            }
        }
        return text(o.toString());
    }

    public static boot.java.lang.String getName(Object c) {
        return text(realOf(c).getName());
    }

    public static boolean isArray(Object c) {
        return realOf(c).isArray();
    }

    public static boolean isInterface(Object c) {
        return realOf(c).isInterface();
    }

    public static boot.java.lang.Class getSuperclass(Object c) {
        Class<?> found = realOf(c).getSuperclass();
        return found == null ? null : classOf(found);
    }

    public static boot.java.lang.Throwable fillInStackTrace(Object o) {
        return (boot.java.lang.Throwable) o;
    }

    public static boot.java.lang.String intern(Object o) {
        boot.java.lang.String text = (boot.java.lang.String) o;
        return INTERNED.computeIfAbsent(real(text), t -> text);
    }

    public static void arraycopy(Object from, int at, Object to, int there, int count) {
        System.arraycopy(from, at, to, there, count);
    }

    public static void exit(int status) {
        throw new IllegalStateException("exit " + status);
    }

    public static int identityHashCode(Object o) {
        return System.identityHashCode(o);
    }

    public static void write(int stream, char[] units, int at, int count) {
        WRITTEN.append(stream).append('[').append(units, at, count).append(']');
    }
}
