/** A lambda, whose constants the format lacks. */
public class Lambda {
    Runnable hello() {
        return () -> System.out.println("hello");
    }
}
