import java.io.IOException;
import java.io.Writer;
import java.util.Arrays;
import java.util.concurrent.atomic.AtomicLong;

/**
 * Records the calls of a queue with one producer and one consumer, for {@code lamport_ring audit --calls}.
 *
 * <pre>
 * RingCalls rec = new RingCalls(1 << 20);      room for this many words of 8 bytes on each side: a put with its end takes 5
 * producer:  rec.put(v);   if (q.offer(v)) rec.stored(); else rec.full();
 *            rec.close();  close();  rec.closed();
 * consumer:  rec.take();   Long v = q.poll();  if (v != null) rec.item(v); else rec.empty();      (rec.told(): empty and closed)
 * when both threads were joined:  rec.write("queue 8", writer);
 * </pre>
 *
 * Why there are no false alarms: each start takes the next ticket of one counter before the call, each end after it, so an
 * interval can only get wider. getAndIncrement is sequentially consistent: if the ticket of an end is smaller than that of a start, the one
 * call happens before the other, and a correct queue has to respect that. All other calls overlap in the recording. While recording nothing
 * is allocated (except by the boxing of your own items) and nothing locked; if the log of a side is full the history is cut there, for
 * both sides: its first line begins with {@code cut}, and write prints to System.err whose log was full, or that no call was recorded.
 * Items are longs, written without a sign: -1 is 18446744073709551615.
 */
public final class RingCalls {
    private static final String[] WORDS = { "P put", "P close", "C take", "P stored", "P some", "P full", "P short", "P nothing",
        "P closed", "C item", "C some", "C empty", "C short", "C nothing", "C closed" };

    /** For each event: its kind and how many numbers it has, its ticket, the numbers. */
    private static final class Log {
        final long[] words;
        int used;
        long cut = Long.MAX_VALUE;

        Log(int room) {
            words = new long[room];
            Arrays.fill(words, 1); // the pages are there before the recording begins
        }

        /** The ticket of the event at this place, of those before the cut. */
        long next(int at, long end) {
            return at < used && words[at + 1] < end ? words[at + 1] : Long.MAX_VALUE;
        }
    }

    private final AtomicLong ticket = new AtomicLong();
    private final Log puts;
    private final Log takes;

    public RingCalls(int words) {
        puts = new Log(words);
        takes = new Log(words);
    }

    private int begin(Log log, int kind, int numbers) {
        if (log.cut != Long.MAX_VALUE) return -1;
        long number = ticket.getAndIncrement();
        int at = log.used;
        if (log.words.length - at < numbers + 2) {
            log.cut = number;
            return -1;
        }
        log.words[at] = kind | (long) numbers << 8;
        log.words[at + 1] = number;
        log.used = at + 2 + numbers;
        return at + 2;
    }

    private void one(Log log, int kind, long number) {
        int at = begin(log, kind, 1);
        if (at >= 0) log.words[at] = number;
    }

    private void all(Log log, int kind, long[] numbers, int n) {
        int at = begin(log, kind, n);
        if (at >= 0) System.arraycopy(numbers, 0, log.words, at, n);
    }

    public void put(long item) { one(puts, 0, item); }
    public void putAll(long[] items, int n) { all(puts, 0, items, n); }
    public void close() { begin(puts, 1, 0); }
    public void stored() { begin(puts, 3, 0); }
    /** The first of the items offered were stored, as many as there was room for. */
    public void storedOf(int stored, int offered) {
        if (stored == 0) full(); else if (stored == offered) stored(); else one(puts, 3, stored);
    }
    /** The first `stored` items were stored, with no reason given why no more. */
    public void some(int stored) { if (stored == 0) putNothing(); else one(puts, 4, stored); }
    public void full() { begin(puts, 5, 0); }
    /** An all-or-nothing put of two items or more: none was stored, since there was not room for all. */
    public void putShort() { begin(puts, 6, 0); }
    /** None was stored, with no reason given. */
    public void putNothing() { begin(puts, 7, 0); }
    /** A close ends, or a put that found the queue closed. */
    public void closed() { begin(puts, 8, 0); }

    public void take() { begin(takes, 2, 0); }
    /** At most this many items, at least 1. */
    public void takeAll(int most) { if (most > 1) one(takes, 2, most); else take(); }
    public void item(long item) { one(takes, 9, item); }
    public void items(long[] items, int n) { if (n == 0) empty(); else all(takes, 9, items, n); }
/** These items, with no reason given why no more. */
    public void someItems(long[] items, int n) { if (n == 0) takeNothing(); else all(takes, 10, items, n); }
    public void empty() { begin(takes, 11, 0); }
    /** An all-or-nothing take of two items or more: there were not enough. */
    public void takeShort() { begin(takes, 12, 0); }
    public void takeNothing() { begin(takes, 13, 0); }
    /** Empty, and closed. */
    public void told() { begin(takes, 14, 0); }

    /**
     * Writes the recording; head is its first line: "queue 8", "queue 1 512" or "queue". If the history is cut, or has no call,
     * prints this to System.err.
     */
    public void write(String head, Writer out) throws IOException {
        long cut = Math.min(puts.cut, takes.cut);
        if (cut != Long.MAX_VALUE) {
            boolean isPuts = cut == puts.cut;
            System.err.println("ring_calls: the " + (isPuts ? "producer" : "consumer") + "'s log was full after " + (isPuts ? puts : takes).words.length
                + " words: the recording is a prefix of what happened");
        } else if (puts.used + takes.used == 0) {
            System.err.println("ring_calls: no call was recorded: is it this RingCalls that was called, and were both threads joined?");
        }
        out.write((cut == Long.MAX_VALUE ? "" : "cut ") + head + "\n");
        int i = 0;
        int j = 0;
        while (Math.min(puts.next(i, cut), takes.next(j, cut)) != Long.MAX_VALUE) {
            boolean isPut = puts.next(i, cut) < takes.next(j, cut);
            long[] words = isPut ? puts.words : takes.words;
            int at = isPut ? i : j;
            int end = at + 2 + (int) (words[at] >>> 8);
            out.write(WORDS[(int) (words[at] & 255)]);
            for (int k = at + 2; k < end; k++) out.write(" " + Long.toUnsignedString(words[k]));
            out.write("\n");
            if (isPut) i = end; else j = end;
        }
        out.flush();
    }
}
