import java.io.ByteArrayOutputStream;
import java.io.File;
import java.io.PrintStream;
import java.lang.reflect.InvocationTargetException;
import java.lang.reflect.Method;
import java.net.URL;
import java.net.URLClassLoader;

/**
 * Runs the mains of packages p0, p1, .. of a folder of class files, each under a class loader of its own, and prints
 * what each printed, a dot before each line, and a line with how it ended.
 */
public class Initialization {
    public static void main(String[] words) throws Exception {
        File folder = new File(words[0]);
        int count = Integer.parseInt(words[1]);
        PrintStream out = System.out;
        for (int number = 0; number < count; number++) {
            ByteArrayOutputStream text = new ByteArrayOutputStream();
            System.setOut(new PrintStream(text, true));
            String end = end(folder, "p" + number + ".Main");
            System.setOut(out);
            for (String line : text.toString().split("\n")) {
                if (!line.isEmpty()) {
                    out.println("." + line);
                }
            }
            out.println("end " + end);
        }
    }

    /** How the main of a class ends. */
    private static String end(File folder, String name) throws Exception {
        try (URLClassLoader loader = new URLClassLoader(new URL[] {folder.toURI().toURL()}, null)) {
            Method main = loader.loadClass(name).getDeclaredMethod("main", String[].class);
            main.setAccessible(true);
            main.invoke(null, (Object) new String[0]);
            return "returned";
        } catch (InvocationTargetException error) {
            return "uncaught " + error.getCause().getClass().getName().replace('.', '/');
        } catch (ExceptionInInitializerError | NoClassDefFoundError error) {
            return "uncaught " + error.getClass().getName().replace('.', '/');
        } catch (Error | RuntimeException error) {
            return "uncaught " + error.getClass().getName().replace('.', '/');
        }
    }
}
