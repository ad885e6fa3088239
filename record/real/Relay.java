import java.io.BufferedWriter;
import java.io.OutputStreamWriter;
import java.io.Writer;
import java.util.SplittableRandom;
import java.util.function.Function;
import java.util.function.Supplier;

/** A producer's and a consumer's thread over a queue, recorded. The close is a flag beside the queue, after which the consumer looks once more. */
final class Relay {
    private static volatile boolean done;

    static void record(String head, int calls, Function<Long, Boolean> put, Supplier<Long> take) throws Exception {
        RingCalls rec = new RingCalls(calls * 64 + 4096);
        Thread producer = new Thread(() -> {
            SplittableRandom random = new SplittableRandom(1);
            long item = 0;
            for (int i = 0; i < calls; i++) {
                Long boxed = item;
                rec.put(item);
                boolean stored = put.apply(boxed);
                if (stored) rec.stored(); else rec.full();
                if (stored) item++;
                rest(random, !stored);
            }
            rec.close();
            done = true;
            rec.closed();
        });
        Thread consumer = new Thread(() -> {
            SplittableRandom random = new SplittableRandom(2);
            boolean told = false;
            while (!told) {
                rec.take();
                Long item = take.get();
                if (item == null && done) {
                    item = take.get();
                    told = item == null;
                }
                if (item != null) rec.item(item); else if (told) rec.told(); else rec.empty();
                rest(random, item == null);
            }
        });
        producer.start();
        consumer.start();
        producer.join();
        consumer.join();
        try (Writer out = new BufferedWriter(new OutputStreamWriter(System.out))) {
            rec.write(head, out);
        }
    }

    private static void rest(SplittableRandom random, boolean missed) {
        boolean longer = missed || random.nextInt(64) == 0;
        for (int n = random.nextInt(longer ? 200 : 8); n > 0; n--) Thread.onSpinWait();
        if (longer && random.nextInt(64) == 0) Thread.yield();
    }
}
