// Reads records by pixelmed, for scripts/peers/run: a file's name on each line of the input, an answer on each line of the output.
//
// All that is asked of pixelmed is what its own viewer asks: the constructor, and the decompressed rhythm data. An answer has
// three parts with tabs between them: "read" or "refused"; the first exception that was thrown, or reported, since pixelmed
// catches some and goes on; the samples of each lead, in JSON.

import com.pixelmed.dicom.BinaryInputStream;
import com.pixelmed.scpecg.SCPECG;
import java.io.BufferedInputStream;
import java.io.BufferedReader;
import java.io.ByteArrayOutputStream;
import java.io.FileInputStream;
import java.io.InputStreamReader;
import java.io.PrintStream;
import java.util.Arrays;

public class Pixelmed {
    private static final ByteArrayOutputStream told = new ByteArrayOutputStream();

    public static void main(String[] words) throws Exception {
        BufferedReader names = new BufferedReader(new InputStreamReader(System.in));
        PrintStream answers = System.out;
        System.setOut(new PrintStream(told, true));
        System.setErr(System.out);
        for (String name = names.readLine(); name != null; name = names.readLine()) {
            told.reset();
            answers.println(answer(name));
            answers.flush();
        }
    }

    private static String answer(String name) {
        try (FileInputStream file = new FileInputStream(name)) {
            BinaryInputStream record = new BinaryInputStream(new BufferedInputStream(file), false);
            short[][] leads = new SCPECG(record, false).getDecompressedRhythmData();
            return "read\t" + exceptionTold() + "\t" + Arrays.deepToString(leads);
        } catch (Throwable thrown) { // errors of the machine (memory, stack) too: each is an answer, not the end
            return "refused\t" + thrown.toString().replaceAll("\\s", " ") + "\tnull";
        }
    }

    private static String exceptionTold() {
        for (String line : told.toString().split("\n")) {
            if (line.contains("Exception")) return line.replaceAll("\\s", " ");
        }
        return "";
    }
}
