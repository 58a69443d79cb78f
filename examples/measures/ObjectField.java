/** A loop over an int field of an object: eleven instructions a turn. */
public class ObjectField {
    int n;

    public static void main(String[] args) {
        ObjectField o = new ObjectField();
        while (o.n < 4000000) {
            o.n = o.n + 1;
        }
        System.out.println(o.n);
    }
}
