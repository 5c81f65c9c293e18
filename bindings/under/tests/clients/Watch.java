import java.nio.file.*;
import static java.nio.file.StandardWatchEventKinds.*;

/** Prints the events that a WatchService reports for a directory. */
public class Watch {
    public static void main(String[] words) throws Exception {
        WatchService service = FileSystems.getDefault().newWatchService();
        Path.of(words[0]).register(service, ENTRY_CREATE, ENTRY_DELETE, ENTRY_MODIFY);
        while (true) {
            WatchKey key = service.take();
            for (WatchEvent<?> event : key.pollEvents()) {
                System.out.println(event.kind() + " " + event.context());
            }
            key.reset();
        }
    }
}
