import org.jctools.queues.MessagePassingQueue;
import org.jctools.queues.MpmcArrayQueue;
import org.jctools.queues.SpscArrayQueue;
import org.jctools.queues.SpscLinkedQueue;

/** JCTools: queues of JCTools. Debian: libjctools-java. No argument: lists them; NAME CALLS: writes a recording. */
final class JCTools {
    public static void main(String[] args) throws Exception {
        if (args.length != 2) {
            System.out.println("jctools_spsc_array lawful\njctools_spsc_linked lawful\njctools_mpmc_array lawful\n"
                + "jctools_spsc_array_named_5 stored, but at least");
            return;
        }
        MessagePassingQueue<Long> q = switch (args[0]) {
            case "jctools_spsc_array" -> new SpscArrayQueue<>(8);
            case "jctools_spsc_linked" -> new SpscLinkedQueue<>();
            case "jctools_mpmc_array" -> new MpmcArrayQueue<>(8);
            default -> new SpscArrayQueue<>(5);
        };
        String head = q instanceof SpscLinkedQueue ? "queue" : args[0].endsWith("5") ? "queue 5" : "queue 8";
        Relay.record(head, Integer.parseInt(args[1]), q::offer, q::poll);
    }
}
