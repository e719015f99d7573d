import java.io.BufferedOutputStream;
import java.io.BufferedReader;
import java.io.IOException;
import java.io.InputStreamReader;
import java.io.OutputStream;
import java.io.PrintStream;
import java.lang.management.ManagementFactory;
import java.lang.management.ThreadMXBean;
import java.lang.reflect.InvocationTargetException;
import java.lang.reflect.Method;
import java.nio.file.Files;
import java.nio.file.Path;
import java.nio.file.Paths;

/**
 * Runs loops that it reads, each in a thread and with a class loader of its own, and answers what each took.
 *
 * <p>It is started with the folder of class files and with the file for what a loop prints. A line is the file of the
 * class that says how many rounds there are, the class with {@code main}, and its other classes. The answer is a line
 * with nanoseconds of the thread's processor. Used by {@code features}.
 */
public class FeatureTimes {
    private static final ThreadMXBean THREADS = ManagementFactory.getThreadMXBean();
    private static final long STACK = 512L << 20;

    private static final class Loader extends ClassLoader {
        private final Path folder;
        private final Path rounds;

        Loader(Path folder, Path rounds) {
            super(null);
            this.folder = folder;
            this.rounds = rounds;
        }

        @Override
        protected Class<?> findClass(String name) throws ClassNotFoundException {
            try {
                byte[] file = Files.readAllBytes(name.equals("Rounds") ? rounds : folder.resolve(name + ".class"));
                return defineClass(name, file, 0, file.length);
            } catch (IOException missing) {
                throw new ClassNotFoundException(name, missing);
            }
        }
    }

    /** What a method without a result takes. What it throws is printed, as what it prints. */
    private static long nanoseconds(Method main) {
        long begun = THREADS.getCurrentThreadCpuTime();
        try {
            main.invoke(null, (Object) new String[0]);
        } catch (InvocationTargetException | IllegalAccessException failed) {
            System.out.println(failed.getCause());
        }
        return THREADS.getCurrentThreadCpuTime() - begun;
    }

    private static long run(Path folder, Path printed, String[] words) throws Exception {
        Loader loader = new Loader(folder, Paths.get(words[0]));
        Class.forName("Rounds", false, loader);
        for (int i = 2; i < words.length; i++) {
            Class.forName(words[i], false, loader);
        }
        Method main = Class.forName(words[1], false, loader).getMethod("main", String[].class);
        long[] answer = new long[1];
        OutputStream file = new BufferedOutputStream(Files.newOutputStream(printed));
        try (PrintStream out = new PrintStream(file, false, "UTF-8")) {
            System.setOut(out);
            Thread thread = new Thread(null, () -> answer[0] = nanoseconds(main), "loop", STACK);
            thread.start();
            thread.join();
        }
        return answer[0];
    }

    public static void main(String[] folders) throws Exception {
        PrintStream answers = System.out;
        BufferedReader lines = new BufferedReader(new InputStreamReader(System.in));
        for (String line = lines.readLine(); line != null; line = lines.readLine()) {
            answers.println(run(Paths.get(folders[0]), Paths.get(folders[1]), line.split(" ")));
            answers.flush();
        }
    }
}
