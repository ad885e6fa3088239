import java.util.Queue;
import java.util.concurrent.ArrayBlockingQueue;
import java.util.concurrent.ConcurrentLinkedQueue;
import java.util.concurrent.LinkedBlockingQueue;

/** JavaQueues: queues of the JDK. No argument: lists them; NAME CALLS: writes a recording. */
final class JavaQueues {
    public static void main(String[] args) throws Exception {
        if (args.length != 2) {
            System.out.println("java_array_blocking lawful\njava_linked_blocking lawful\njava_concurrent_linked lawful");
            return;
        }
        Queue<Long> q = switch (args[0]) {
            case "java_array_blocking" -> new ArrayBlockingQueue<>(8);
            case "java_linked_blocking" -> new LinkedBlockingQueue<>(8);
            default -> new ConcurrentLinkedQueue<>();
        };
        Relay.record(q instanceof ConcurrentLinkedQueue ? "queue" : "queue 8", Integer.parseInt(args[1]), q::offer, q::poll);
    }
}
