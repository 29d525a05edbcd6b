/** Prints the answer. The machine supplies the native method. */
public class Main {
    static native void put(int n);

    public static void main(String[] args) {
        put(40 + 2);
    }
}
