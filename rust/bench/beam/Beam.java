import java.io.IOException;
import java.lang.management.ManagementFactory;
import java.nio.file.Files;
import java.nio.file.Path;
import java.util.ArrayList;
import java.util.List;
import uk.ac.ebi.beam.Graph;

/**
 * Beam's time for what `balsa_standardize` does: a text read, its double bonds placed, and the text written.
 *
 * <p>CPU microseconds per text of a file, the quickest round of half a million texts after as many to warm
 * up; texts that Beam refuses are left out and counted. It is the time of the thread that calls: what the
 * compiler and the collector of the virtual machine do on threads of their own is not in it.
 *
 * <pre>java -cp /usr/share/java/beam-core.jar rust/bench/beam/Beam.java corpus/real.smi [LEAST MOST]</pre>
 */
public final class Beam {
    private static final int TEXTS = 500_000;

    private static long kept;

    public static void main(String[] arguments) throws IOException {
        int least = arguments.length > 1 ? Integer.parseInt(arguments[1]) : 0;
        int most = arguments.length > 2 ? Integer.parseInt(arguments[2]) : Integer.MAX_VALUE;
        List<String> texts = new ArrayList<>();
        int refused = 0;
        for (String text : Files.readAllLines(Path.of(arguments[0]))) {
            if (text.length() < least || text.length() > most) {
                continue;
            }
            try {
                Graph.fromSmiles(text).kekule().toSmiles();
                texts.add(text);
            } catch (IOException | RuntimeException error) {
                refused++;
            }
        }
        int rounds = TEXTS / texts.size() + 1;
        long quickest = Long.MAX_VALUE;
        for (int round = 0; round < 2 * rounds; round++) {
            long time = round(texts);
            if (round >= rounds) {
                quickest = Math.min(quickest, time);
            }
        }
        double bytes = texts.stream().mapToInt(String::length).average().orElse(0);
        System.out.printf("%d texts of %.1f bytes, %d refused%n", texts.size(), bytes, refused);
        System.out.printf("%.3f microseconds%n", quickest / 1e3 / texts.size());
        System.out.printf("(%d bytes written)%n", kept / (2 * rounds));
    }

    /** The CPU time of this thread for all texts, in nanoseconds. */
    private static long round(List<String> texts) throws IOException {
        var clock = ManagementFactory.getThreadMXBean();
        long begin = clock.getCurrentThreadCpuTime();
        for (String text : texts) {
            kept += Graph.fromSmiles(text).kekule().toSmiles().length();
        }
        return clock.getCurrentThreadCpuTime() - begin;
    }
}
