// Writes the mapping of Java's charsets, for independent_converters.py.
//
//     java DumpCharset.java CHARSET...
//
// For each charset a line `C CHARSET`, then a line `D CODE UNIT` for each code of one or two bytes that is decoded to
// one character, and `E UNIT CODE` for each unit that is encoded. A second byte is tried only after a byte that has
// no character alone.

import java.io.BufferedOutputStream;
import java.io.PrintStream;
import java.nio.ByteBuffer;
import java.nio.CharBuffer;
import java.nio.charset.CharacterCodingException;
import java.nio.charset.Charset;
import java.nio.charset.CharsetDecoder;
import java.nio.charset.CharsetEncoder;
import java.nio.charset.CodingErrorAction;

public class DumpCharset {
    static String decoded(CharsetDecoder decoder, byte... code) {
        try {
            return decoder.reset().decode(ByteBuffer.wrap(code)).toString();
        } catch (CharacterCodingException error) {
            return "";
        }
    }

    static void dump(String name, PrintStream out) {
        Charset charset = Charset.forName(name);
        CharsetDecoder decoder = charset.newDecoder()
                .onMalformedInput(CodingErrorAction.REPORT).onUnmappableCharacter(CodingErrorAction.REPORT);
        CharsetEncoder encoder = charset.newEncoder()
                .onMalformedInput(CodingErrorAction.REPORT).onUnmappableCharacter(CodingErrorAction.REPORT);
        out.printf("C %s%n", name);
        for (int first = 0; first < 256; first++) {
            String alone = decoded(decoder, (byte) first);
            if (alone.length() == 1) {
                out.printf("D %02X %04X%n", first, (int) alone.charAt(0));
                continue;
            }
            for (int second = 0; second < 256; second++) {
                String pair = decoded(decoder, (byte) first, (byte) second);
                if (pair.length() == 1) {
                    out.printf("D %02X%02X %04X%n", first, second, (int) pair.charAt(0));
                }
            }
        }
        for (int unit = 0; unit < 65536; unit++) {
            try {
                ByteBuffer code = encoder.reset().encode(CharBuffer.wrap(new char[] {(char) unit}));
                StringBuilder hex = new StringBuilder();
                while (code.hasRemaining()) {
                    hex.append(String.format("%02X", code.get() & 0xFF));
                }
                out.printf("E %04X %s%n", unit, hex);
            } catch (CharacterCodingException error) {
                // no code
            }
        }
    }

    public static void main(String[] names) {
        PrintStream out = new PrintStream(new BufferedOutputStream(System.out));
        for (String name : names) {
            dump(name, out);
        }
        out.flush();
    }
}
