/** Floating point, whose opcodes the table lacks; its constants are in the format. */
public class Doubles {
    double half(double x) {
        return x * 0.5 + 2.5f;
    }
}
