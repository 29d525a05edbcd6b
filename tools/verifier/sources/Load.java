package check;

import java.io.File;
import java.net.URL;
import java.net.URLClassLoader;

/** Loads and links a class of each folder, beside those of the first one, and says what comes of it. */
public class Load {
    public static void main(String[] args) throws Exception {
        URL bases = new File(args[0]).toURI().toURL();
        for (int i = 1; i + 1 < args.length; i += 2) {
            URL[] folders = {new File(args[i]).toURI().toURL(), bases};
            try (URLClassLoader loader = new URLClassLoader(folders, ClassLoader.getPlatformClassLoader())) {
                System.out.println(args[i] + " " + outcome(args[i + 1], loader));
            }
        }
    }

    private static String outcome(String name, ClassLoader loader) {
        try {
            Class.forName(name, true, loader);
            return "ok";
        } catch (Throwable fault) {
            return fault.getClass().getName();
        }
    }
}
