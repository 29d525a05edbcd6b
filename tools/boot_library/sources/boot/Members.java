package boot;

import java.lang.invoke.MethodType;
import java.lang.reflect.Modifier;
import java.util.Scanner;

/** Compares classes and members, given a line each, with those of the JDK. */
public class Members {
    static int faults = 0;
    static final int CLASS = Modifier.PUBLIC | Modifier.FINAL | Modifier.INTERFACE | Modifier.ABSTRACT;
    static final int MEMBER =
            Modifier.PUBLIC | Modifier.PROTECTED | Modifier.STATIC | Modifier.FINAL | Modifier.ABSTRACT;

    static void fault(String line, String why) {
        System.out.println(line + ": " + why);
        faults++;
    }

    static Class<?> find(String name) throws ClassNotFoundException {
        return Class.forName(name.replace('/', '.'));
    }

    static void compareClass(String line, int flags, Class<?> c, String superclass) throws ClassNotFoundException {
        if ((c.getModifiers() & CLASS) != (flags & CLASS)) {
            fault(line, "flags " + c.getModifiers());
        }
        Class<?> wanted = superclass.equals("-") || superclass.equals("?") || c.isInterface() ? null : find(superclass);
        if (wanted != null && c.getSuperclass() != wanted) {
            fault(line, "superclass " + c.getSuperclass());
        }
    }

    static int flagsOfConstructor(Class<?> c, String desc) {
        for (var found : c.getDeclaredConstructors()) {
            if (MethodType.methodType(void.class, found.getParameterTypes()).toMethodDescriptorString().equals(desc)) {
                return found.getModifiers();
            }
        }
        return -1;
    }

    static int flagsOfMethod(Class<?> c, String name, String desc) {
        for (Class<?> in = c; in != null; in = in.getSuperclass()) {
            for (var found : in.getDeclaredMethods()) {
                var type = MethodType.methodType(found.getReturnType(), found.getParameterTypes());
                if (found.getName().equals(name) && type.toMethodDescriptorString().equals(desc)) {
                    return found.getModifiers();
                }
            }
        }
        return -1;
    }

    static int flagsOfField(Class<?> c, String name, String desc) throws NoSuchFieldException {
        var found = c.getDeclaredField(name);
        return found.getType().descriptorString().equals(desc) ? found.getModifiers() : -1;
    }

    static void compare(String line) throws ReflectiveOperationException {
        String[] words = line.split(" ");
        int flags = Integer.parseInt(words[1]);
        Class<?> c = find(words[2]);
        if (words[0].equals("class")) {
            compareClass(line, flags, c, words[3]);
            return;
        }
        String name = words[3];
        String desc = words[4];
        int real = words[0].equals("field") ? flagsOfField(c, name, desc)
                : name.equals("<init>") ? flagsOfConstructor(c, desc) : flagsOfMethod(c, name, desc);
        if (real == -1) {
            fault(line, "the JDK has none");
        } else if ((real & MEMBER) != (flags & MEMBER)) {
            fault(line, "flags " + real);
        }
    }

    public static void main(String[] args) throws ReflectiveOperationException {
        Scanner lines = new Scanner(System.in);
        int count = 0;
        while (lines.hasNextLine()) {
            compare(lines.nextLine());
            count++;
        }
        System.out.println(count + " classes and members compared");
        System.exit(faults == 0 && count > 0 ? 0 : 1);
    }
}
