/** Arrays, whose opcodes the table lacks. */
public class Arrays {
    int sum(int[] xs) {
        int sum = 0;
        for (int i = 0; i < xs.length; i++) {
            sum += xs[i];
        }
        return sum;
    }
}
