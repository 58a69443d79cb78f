/** Two appends a turn of the inner loop, of a text and of an int. */
public class Appends {
    public static void main(String[] args) {
        int s = 0;
        for (int i = 0; i < 50000; i = i + 1) {
            StringBuilder b = new StringBuilder();
            for (int j = 0; j < 20; j = j + 1) {
                b.append("ab").append(j);
            }
            s = s + b.toString().length();
        }
        System.out.println(s);
    }
}
