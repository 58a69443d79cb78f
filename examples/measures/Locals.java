/** A loop over locals and an int array: twenty-two instructions a turn of the inner loop. */
public class Locals {
    public static void main(String[] args) {
        int[] a = new int[1000];
        int s = 0;
        for (int i = 0; i < 2000; i = i + 1) {
            for (int j = 0; j < 1000; j = j + 1) {
                a[j] = a[j] + i;
                s = s + a[j];
            }
        }
        System.out.println(s);
    }
}
