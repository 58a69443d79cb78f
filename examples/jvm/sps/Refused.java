package sps;

/** Why nothing is run, in one sentence. */
final class Refused extends Exception {
    private static final long serialVersionUID = 0;

    Refused(String why) { super(why); }
}
