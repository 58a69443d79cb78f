/** An object of two fields that is made and dropped, with its constructor, which writes both. */
public class Objects {
    int a;
    int b;

    Objects(int a, int b) {
        this.a = a;
        this.b = b;
    }

    public static void main(String[] args) {
        int s = 0;
        for (int i = 0; i < 4000000; i = i + 1) {
            s = s + new Objects(i, s).b;
        }
        System.out.println(s);
    }
}
