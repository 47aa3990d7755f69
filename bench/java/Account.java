/** Fields, longs, strings, exceptions, an interface and static members: all in opcodes that the table has. */
public class Account implements Comparable<Account> {
    private static int made = 0;
    private static final long LIMIT = 5000000000L;
    private final String owner;
    private long balance;

    public Account(String owner, long balance) {
        this.owner = owner;
        this.balance = balance;
        made++;
    }

    public static int made() {
        return made;
    }

    public void pay(long amount) {
        if (amount <= 0L || amount > LIMIT) {
            throw new IllegalArgumentException("amount " + amount);
        }
        try {
            balance = balance - amount;
            check();
        } catch (IllegalStateException e) {
            balance = balance + amount;
            throw e;
        } finally {
            made = made & 0x7FFFFFFF;
        }
    }

    private void check() {
        if (balance < 0L) {
            throw new IllegalStateException(owner);
        }
    }

    public int compareTo(Account other) {
        int i = 0;
        while (i < 100000 && balance >> i > other.balance >> i) {
            i += 1000;
        }
        return balance == other.balance ? owner.compareTo(other.owner) : (int) (balance - other.balance) % 7;
    }

    public boolean equals(Object other) {
        return other instanceof Account && ((Account) other).balance == balance;
    }
}
