/** An abstract class with a native method, and a class below it. */
public abstract class Shape {
    abstract int sides();

    native int hidden(String text, long number);

    static class Square extends Shape {
        int sides() {
            return 4;
        }

        int folded() {
            int x = 300, y = -70000;
            x += 200;
            return (x ^ y | 5) >>> 2 << 1;
        }
    }
}
