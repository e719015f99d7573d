import java.io.BufferedReader;
import java.io.ByteArrayOutputStream;
import java.io.InputStreamReader;
import java.io.PrintStream;
import java.lang.reflect.InvocationTargetException;
import java.lang.reflect.Method;
import java.util.HashMap;
import java.util.Map;

/**
 * Runs programs that it reads, each with a class loader of its own, and tells how each ended and what it printed.
 *
 * <p>A program is a line: its entry class, then the name and the file of each class, all in hexadecimal digits, names
 * by their UTF-16 units. For each it prints a line: the class of what was thrown, or {@code returned}, and the bytes
 * that it printed, in hexadecimal digits. Used by {@code jvm_cases.py}.
 */
public class JvmCases {
    private static final class Loader extends ClassLoader {
        private final Map<String, byte[]> files;

        Loader(Map<String, byte[]> files) {
            this.files = files;
        }

        @Override
        protected Class<?> findClass(String name) throws ClassNotFoundException {
            byte[] file = files.get(name.replace('.', '/'));
            if (file == null) {
                throw new ClassNotFoundException(name);
            }
            return defineClass(null, file, 0, file.length);
        }
    }

    private static byte[] bytes(String digits) {
        byte[] bytes = new byte[digits.length() / 2];
        for (int i = 0; i < bytes.length; i++) {
            bytes[i] = (byte) Integer.parseInt(digits.substring(2 * i, 2 * i + 2), 16);
        }
        return bytes;
    }

    private static String name(String digits) throws Exception {
        return new String(bytes(digits), "UTF-16BE");
    }

    private static Throwable ended(String[] words) throws Exception {
        Map<String, byte[]> files = new HashMap<>();
        for (int i = 1; i + 1 < words.length; i += 2) {
            files.put(name(words[i]), bytes(words[i + 1]));
        }
        try {
            String entry = name(words[0]).replace('/', '.');
            Class<?> given = Class.forName(entry, true, new Loader(files));
            Method main = given.getDeclaredMethod("main", String[].class);
            main.setAccessible(true);
            main.invoke(null, (Object) new String[0]);
            return null;
        } catch (InvocationTargetException thrown) {
            return thrown.getCause();
        } catch (Throwable thrown) {
            return thrown;
        }
    }

    public static void main(String[] args) throws Exception {
        PrintStream out = System.out;
        BufferedReader lines = new BufferedReader(new InputStreamReader(System.in));
        for (String line = lines.readLine(); line != null; line = lines.readLine()) {
            ByteArrayOutputStream printed = new ByteArrayOutputStream();
            System.setOut(new PrintStream(printed, true, "UTF-8"));
            Throwable thrown = ended(line.split(" "));
            System.setOut(out);
            StringBuilder text = new StringBuilder(thrown == null ? "returned" : thrown.getClass().getName());
            text.append(" :");
            for (byte b : printed.toByteArray()) {
                text.append(String.format("%02X", b));
            }
            String message = thrown == null ? "" : String.valueOf(thrown.getMessage());
            out.println(text + " " + message.split("\n")[0].replaceAll("[^ -~]", "?"));
        }
    }
}
