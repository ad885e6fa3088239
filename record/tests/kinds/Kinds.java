import java.io.OutputStreamWriter;
import java.io.Writer;

/** Kinds WORDS: records each kind of event, in logs of WORDS words; without WORDS no event. */
final class Kinds {
    public static void main(String[] args) throws Exception {
        if (args.length == 0) {
            try (Writer out = new OutputStreamWriter(System.out)) {
                new RingCalls(8).write("queue 2", out);
            }
            return;
        }
        RingCalls rec = new RingCalls(Integer.parseInt(args[0]));
        rec.put(5);
        rec.take();
        rec.stored();
        rec.item(5);
        rec.putAll(new long[] { 1, 2, 3 }, 3);
        rec.storedOf(2, 3);
        rec.put(4);
        rec.full();
        rec.putAll(new long[] { 4, 5 }, 2);
        rec.putShort();
        rec.put(6);
        rec.putNothing();
        rec.takeAll(3);
        rec.takeShort();
        rec.takeAll(3);
        rec.items(new long[] { 1, 2 }, 2);
        rec.take();
        rec.empty();
        rec.take();
        rec.takeNothing();
        rec.putAll(new long[] { 1, 2, 3 }, 3);
        rec.some(2);
        rec.put(6);
        rec.some(0);
        rec.takeAll(3);
        rec.someItems(new long[] { 1, 2 }, 2);
        rec.take();
        rec.someItems(new long[0], 0);
        rec.close();
        rec.closed();
        rec.putAll(new long[] { 7, -1 }, 2);
        rec.closed();
        rec.take();
        rec.told();
        try (Writer out = new OutputStreamWriter(System.out)) {
            rec.write("queue 2", out);
        }
    }
}
