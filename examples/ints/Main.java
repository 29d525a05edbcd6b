public class Main {
    static native void put(int n);

    public static void main(String[] args) {
        int n = 40;
        n += 2;
        put(n);
        put(-1 >>> n);
    }
}
