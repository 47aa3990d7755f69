/** A switch, and a monitor. */
public class Switch {
    String name(int x) {
        switch (x) {
            case 1: return "one";
            case 2: return "two";
            default: return "many";
        }
    }

    int guarded(Object lock) {
        synchronized (lock) {
            return 1;
        }
    }
}
