#!/bin/sh
# Runs the program on what it refuses, and compares its status and its sentence on standard error; standard output is left alone. The classes
# are those of the tests, and some that javac makes here.
# Usage: examples/hints.sh PROGRAM, with the program that `rt ci` built (crates/javasec/out/javasec).
set -u
program=$(realpath "$1") || exit 1
memory=$(realpath "$(dirname "$0")/../crates/tests_runs/data/memory") || exit 1
folder=$(mktemp -d) || exit 1
trap 'rm -rf "$folder"' EXIT
cd "$folder" || exit 1
failed=0

# ends STATUS SAID WORD..: the command of the words ends so, and all this is said
ends() {
  status=$1 sentence=$2
  shift 2
  said=$(timeout 60 "$program" "$@" 2>&1 >/dev/null)
  got=$?
  if [ "$got" = "$status" ] && [ "$said" = "$sentence" ]; then
    printf 'ok: %s\n' "${said:-$* says nothing}"
  else
    printf 'WRONG: %s ends with %s: %s\n' "$*" "$got" "$said"
    printf '    and not: %s\n' "$sentence"
    failed=1
  fi
}

# check SENTENCE WORD..: the command of the words is refused, and this is said
check() {
  sentence="javasec: $1"
  shift
  ends 3 "$sentence" "$@"
}

# job LINE..: the job has these lines
job() {
  printf '%s\n' "$@" >job
}

# bad_job SENTENCE LINE..
bad_job() {
  sentence=$1
  shift
  job "$@"
  check "job, $sentence" check job
}

echo '# words that are no command'

# no_command SENTENCE WORD..
no_command() {
  sentence="javasec: $1; the commands are \`run JOB\`, \`check JOB\`, \`rewrite JOB OUT\`, \`policy JOB\` and \`gen SEED SIZE\`, where SIZE is 1 to 1000; the first two take --form=inspect, --form=pass or --form=plain"
  shift
  ends 2 "$sentence" "$@"
}

no_command 'there is no word, or one that is no UTF-8'
no_command 'a word is missing' rewrite job
no_command 'a word is missing' run --form
no_command '`chekc` isn'\''t allowed there' chekc job
no_command '`more` isn'\''t allowed there' check job more
no_command '`--form=walk` isn'\''t allowed there' run --form=walk job
no_command '`walk` isn'\''t allowed there' run --form walk job
no_command '`policy` isn'\''t allowed there' --form=plain policy job
no_command '`--frm=plain` isn'\''t allowed there' run --frm=plain job
no_command '`1001` isn'\''t allowed there' gen 1 1001
no_command '`one` isn'\''t allowed there' gen one 1
no_command '`` isn'\''t allowed there' rewrite job ''

echo '# jobs'
bad_job 'line 1, "heap 16777217": heap takes a number up to 16777216 in digits alone, at most once' 'heap 16777217'
bad_job 'line 1, "heap 1,000": heap takes a number up to 16777216 in digits alone, at most once' 'heap 1,000'
bad_job 'line 1, "depth 1e3": depth takes a number from 1 to 10000 in digits alone, at most once' 'depth 1e3'
bad_job 'line 1, "steps 1_000": steps takes a number up to 1000000000000 in digits alone, at most once' 'steps 1_000'
bad_job 'line 1, "schedule 1, 2": schedule takes numbers up to 4294967295 in digits alone, with one space between, at most 1000000 in all' 'schedule 1, 2'
bad_job 'line 3, "heap 6": line 1 says it already' 'heap 5' '# once' 'heap 6' 'main Main'
bad_job 'line 2, "prop a=2": line 1 says it already' 'prop a=1' 'prop a=2' 'main Main'
bad_job 'line 1, "code file:/a": code takes a URL whose path ends in /, as file:/app/, at most 4,096 times' 'code file:/a'
bad_job 'line 1, "class Main.class": class takes a path, behind a line `code URL`, at most 65,535 times' 'class Main.class'
bad_job 'line 2: a line `main NAME` is missing, as `main app/Main`' 'code file:/a/'
bad_job 'line 1, "refresh 3": a line is a key, one space and a value; the keys are policy, prop, cwd, code, class, main, schedule, heap, depth and steps' 'refresh 3'
esc=$(printf '\033')
bad_job 'line 1, "cwd \u001b[31m": cwd takes a path that begins with /, at most once' "cwd $esc[31m"
bad_job 'line 1, "heap 5\u000d": the line ends in a carriage return' "heap 5$(printf '\r')"
printf 'code file:/a/\r\nclass Main.class\r\nmain Main\r\n' >job
ends 7 'javasec: Main.class\u000d could not be read: the line ends in a carriage return' check job
ends 7 'javasec: Main.class\u000d could not be read: nothing is there' check "Main.class$(printf '\r')"
printf 'main \377\n' >job
check 'job, line 1: the bytes there are no UTF-8' check job

echo '# policies'
job 'policy app.policy' 'code file:/a/' 'class Main.class' 'main Main'

# bad_policy SENTENCE TEXT
bad_policy() {
  printf '%s' "$2" >app.policy
  check "app.policy, $1" policy job
}

bad_policy 'line 1, column 48: `}` isn'\''t allowed there; what may stand there: ; , "text" signedBy' 'grant { permission java.security.AllPermission }'
bad_policy 'line 2, column 14: `"x"` isn'\''t allowed there; what may stand there: a word' 'grant {
  permission "x";
};'
bad_policy 'line 1, column 16: `"file:/a/ {` is a string that its line doesn'\''t end; what may stand there: "text"' 'grant codeBase "file:/a/ {
};'
bad_policy 'line 1, column 1: `gr` isn'\''t allowed there; what may stand there: grant keystore keystorePasswordURL' 'gr { };'
bad_policy 'line 1, column 11: the text ends there; what may stand there: ;' 'grant { } '
bad_policy 'line 1, column 1: `/*` begins a comment that isn'\''t closed; what may stand there: grant keystore keystorePasswordURL' '/* open'
bad_policy 'line 1, column 24: `${{..}}` isn'\''t read here: write what it stands for' 'grant { permission a.B "${{x}}"; };'
bad_policy 'line 1, column 43: `"C:\\101\\x"` has an escape in digits, which isn'\''t read; what may stand there: ; , "text" signedBy' 'grant { permission java.io.FilePermission "C:\101\x"; };'
bad_policy 'line 1, column 20: `"a\\"b"` isn'\''t allowed there; what may stand there: a word' 'grant { permission "a\"b"; };'
printf 'grant \377' >app.policy
check 'app.policy, line 1, column 7: the bytes there are no UTF-8' policy job

echo '# what a policy loses'

# loses TEXT LINE..: the policy of this text is listed, and these lines are said
loses() {
  printf '%s\n' "$1" >app.policy
  shift
  said=
  for line in "$@"; do
    said="$said${said:+
}javasec: app.policy$line"
  done
  ends 0 "$said" policy job
}

job 'policy app.policy' 'prop set=x' 'prop void=' 'code file:/a/' 'main Main'
loses 'grant { permission java.io.FilePermission "${set}${/}-", "read"; };'
loses '// ${none} "${none}"
/* ${none} */ keystore "${none}";
grant codeBase "file:/a/-" {
  permission java.io.FilePermission "${none}/-", "read";
};' ', line 4: `${none}` is no property of the job, so the entry is left out'
loses 'grant codeBase "${home}/-" { permission java.security.AllPermission; };' ', line 1: `${home}` is no property of the job, so the grant is left out'
loses 'grant signedBy "duke" { };' ', line 1: a signer is asked for, and class files of a job have none, so the grant gives nothing'
loses 'grant SignedBy "duke", principal a.B "me" { };' ', line 1: a signer is asked for, and class files of a job have none, so the grant gives nothing' ', line 1: a principal is asked for, and a job has none, so the grant gives nothing'
loses 'grant {
  permission a.B "c", signedBy "duke";
};' ', line 2: a signer is asked for, and class files of a job have none, so the entry grants nothing'
loses 'grant codeBase "file:/b/-" { };' ': "file:/b/-" stands for no code source of the job, so its grant gives nothing'
loses 'grant { permission a.B "c"; };' ': a.B "c" is of no class of permissions that is known here, so the entry grants nothing'
loses 'grant { permission java.util.PropertyPermission "p", "rread"; };' ': java.util.PropertyPermission "p": "rread" are no actions of it, so the entry grants nothing'
loses 'grant { permission java.util.PropertyPermission "p"; };' ': java.util.PropertyPermission "p" has no actions, so the entry grants nothing'
loses 'grant { permission java.lang.RuntimePermission; };' ': java.lang.RuntimePermission has no name, so the entry grants nothing'
loses 'grant { permission java.lang.RuntimePermission "${void}"; };' ': java.lang.RuntimePermission "" has a name that is empty, so the entry grants nothing'
loses 'grant { permission java.lang.RuntimePermission "g*"; };' ': java.lang.RuntimePermission "g*": the * is no wildcard there, where it is neither the whole name nor the end behind a dot'
loses 'grant { permission java.io.FilePermission "/a/*.txt", "read"; };' ': java.io.FilePermission "/a/*.txt": the * is no wildcard there, where it is neither the whole name nor the end behind a slash'
loses 'grant { permission java.lang.RuntimePermission "g.*"; permission java.io.FilePermission "*", "read"; };'

echo '# classes made by hand'

# of_class SENTENCE FILE WORD..: the class file of the tests is the only one of the job
of_class() {
  sentence=$1
  cp "$memory/$2" Main.class
  job 'code file:/a/' 'class Main.class' 'main Main'
  shift 2
  check "$sentence" "$@"
}

of_class 'Main.class, in pool entry 1: no entry of the pool has this tag' bad_tag.class check job
of_class 'Main.class, in pool entry 4: something isn'\''t wholly there: the file was cut, or a length is wrong' empty_cut_at_30.class check job
of_class 'Main.class, in method f()V, its code at 0: an instruction that is left out, fadd: float or double: whole numbers of a smaller unit' adds_floats.class check job
of_class 'class Main: it extends or implements Gone, which neither the job nor the library has' over_gone.class check job
of_class 'class A: it stands above itself: class files of two builds' over_itself.class check job
of_class 'class java/lang/Object: the library has a class of this name' object.class check job
of_class 'class M, f(F)V: float and double are left out: whole numbers of a smaller unit' takes_float.class check job
of_class 'class M, getMessage()Ljava/lang/String;: it overrides a method of the library that has code: another name' overrides.class check job
of_class 'class Main: names that begin with sps/ are those of moved programs: another package, or `check --form=plain`' passes.class check job
of_class 'main Main: the class has no `public static void main(String[])`; main([Ljava/lang/String;)V isn'\''t static' not_static.class run --form=inspect job
of_class 'main Main: the class has no `public static void main(String[])`; main()V takes or gives something else' takes_nothing.class run --form=inspect job
of_class 'main Main: the job has no class of this name, which is written with slashes' empty.class run --form=inspect job
of_class 'class Main, main([Ljava/lang/String;)V at 0: pop; the stack is empty; that, or the frame declared there or behind it, doesn'\''t fit: compile anew' pops.class check job
of_class 'class Main, main([Ljava/lang/String;)V at 0: goto, which takes nothing; the stack is empty; no frame is declared at 0, to which it leads: compile anew' goto.class check job
of_class 'class Main, main([Ljava/lang/String;)V at 1: areturn, which takes an object or an array; on the stack: an int; the method returns nothing: compile anew' returns_int.class check job
of_class 'class Main, main([Ljava/lang/String;)V at 3: invokestatic of java/security/AccessController.checkPermission(Ljava/security/Permission;)V; on the stack: a new object, not initialised; that, or the frame declared there or behind it, doesn'\''t fit: compile anew' unset.class check job
of_class 'class Main, main([Ljava/lang/String;)V: it has 65,535 locals, and there is room for no more: a smaller method' full_locals.class rewrite job out
of_class 'class Main, main([Ljava/lang/String;)V: its frames would have more than 16,777,216 locals and operands: a smaller method' many_frames.class rewrite job out
of_class 'class Main, main([Ljava/lang/String;)V: its operands take 65533 places, 1 too many: smaller expressions' full_stack.class rewrite job out
of_class 'class Main, main([Ljava/lang/String;)V: its code would have 32768 bytes, 1 too many: split the method' ../longest_nops.Main.class rewrite job out
of_class 'class Main: it would have more than 65,534 constants, and has 65528 so far: split the class' pool_full.class rewrite job out

echo '# classes made by javac, for Java 8 but the first'

# compiled RELEASE FILE TEXT: the class files of a text, and a job of all that are there
compiled() {
  printf '%s' "$3" >"$2"
  javac -nowarn -Xlint:none --release "$1" -cp classes -d classes "$2"
  {
    echo 'code file:/a/'
    find classes -name '*.class' | sort | sed 's,^,class ,'
    echo 'main Main'
  } >job
}

# of_java SENTENCE TEXT: a text of the class Main is compiled and checked
of_java() {
  rm -rf classes
  compiled 8 Main.java "$2"
  check "$1" check job
}

# of_body SENTENCE TEXT: the same of what stands in its main
of_body() {
  of_java "$1" "public class Main { public static void main(String[] args) { $2 } }"
}

rm -rf classes
compiled 17 Main.java 'public class Main { public static void main(String[] args) { } }'
check 'classes/Main.class has version 61, which is Java 17; 50 to 52 are read, Java 6 to 8: `javac --release 8`' check job
at='in method main([Ljava/lang/String;)V, its code at'
of_body "classes/Main.class, $at 0: an instruction that is left out, invokedynamic: a lambda, a method reference or a new way of joining texts: write a class, and \`javac --release 8\`" 'Runnable r = () -> {};'
of_body "classes/Main.class, $at 3: an instruction that is left out, monitorenter: a \`synchronized\` block: leave it out, since turns change at start, yield and join alone" 'synchronized (args) { }'
of_body "classes/Main.class, $at 2: an instruction that is left out, multianewarray: an array of arrays at once: \`new int[2][]\` and a loop" 'int[][] a = new int[2][3];'
main='class Main, main([Ljava/lang/String;)V:'
of_body "classes/Main.class, $at 1: arrays of float and double aren't read here, newarray: whole numbers of a smaller unit" 'Object o = new float[1];'
of_body "classes/Main.class, $at 1: arrays of float and double aren't read here, newarray: whole numbers of a smaller unit" 'Object o = new double[2];'
of_body "$main it names java/util/ArrayList, which neither the job nor the library has" 'Object o = new java.util.ArrayList<String>();'
rm -rf classes
compiled 8 Main.java 'class Gone {} public class Main { public static void main(String[] args) { Object o = Gone.class; } }'
rm classes/Gone.class
sed -i /Gone/d job
check "$main it names Gone, which neither the job nor the library has" check job
rm -rf classes
compiled 8 Main.java 'class Gone {} public class Main { public static void main(String[] args) { Gone g = null; for (int i = 0; i < 2; i++) { } } }'
rm classes/Gone.class
sed -i /Gone/d job
check "$main it names Gone in a frame, which neither the job nor the library has" check job
of_body "$main it uses java/lang/String.substring(I)Ljava/lang/String;, which neither that class nor one above it has" 'String s = "abc".substring(1);'
of_body "$main it uses java/lang/System.err Ljava/io/PrintStream;, which neither that class nor one above it has" 'Object o = System.err;'
of_body "$main \`X.class\` is left out" 'Object o = Main.class;'
of_body "$main members of arrays, as \`array.clone()\`, are left out: a loop" 'int[] a = {1}; Object o = a.clone();'
of_java 'class Main, <clinit>()V: a static initialiser is left out: set the fields at the beginning of main' 'public class Main { static int n = 3; }'
of_java 'class Main, <clinit>()V: a static initialiser is left out: `assert` makes one; leave it out' 'public class Main { static void f(int i) { assert 0 < i; } }'
of_java 'class Main, f()V: synchronized is left out: turns change at start, yield and join alone' 'public class Main { synchronized void f() {} }'
of_java 'class Main, nF: float and double are left out: whole numbers of a smaller unit' 'public class Main { float n; }'
of_java 'class I, f()V: methods with code are left out of interfaces: an abstract class' 'interface I { default void f() {} }'
of_java 'class Main$E: it extends or implements java/lang/Enum, which neither the job nor the library has' 'public class Main { enum E { A } }'
of_java 'class Main: it extends java/lang/Thread, which is final, an interface, or no class that users may extend' 'public class Main extends Thread { }'

echo '# class files of two builds'
rm -rf classes
compiled 8 I.java 'interface I { }'
compiled 8 Main.java 'public class Main implements I { }'
compiled 8 I.java 'class I { }'
check "class Main: it implements I, which isn't an interface" check job

# of_two SENTENCE FILE FIRST THEN: of a text of another class, against which Main is compiled, and of what it is afterwards
of_two() {
  rm -rf classes
  compiled 8 "$2" "$3"
  compiled 8 Main.java 'public class Main { public static void main(String[] args) { new p.B().f(); } }'
  compiled 8 "$2" "$4"
  check "$main $1" check job
}

of_two 'it names p/B, which isn'\''t public and stands in another package' B.java 'package p; public class B { public void f() {} }' 'package p; class B { public void f() {} }'
of_two 'it uses p/B.f()V, which may not be used so from there: private, of another package, or final' B.java 'package p; public class B { public void f() {} }' 'package p; public class B { void f() {} }'
of_two 'it uses p/B.f()V, which neither that class nor one above it has' B.java 'package p; public class B { public void f() {} }' 'package p; public class B { }'
of_two 'it uses p/B.f()V, which is static, by invokevirtual: class files of two builds' B.java 'package p; public class B { public void f() {} }' 'package p; public class B { public static void f() {} }'
of_two 'it uses p/B, which is abstract, by new: class files of two builds' B.java 'package p; public class B { public void f() {} }' 'package p; public abstract class B { public void f() {} }'
of_two 'it uses p/B, which is an interface, by new: class files of two builds' B.java 'package p; public class B { public void f() {} }' 'package p; public interface B { void f(); }'

# of_field SENTENCE FIRST THEN: of a text of the class A, against which Main is compiled, and of what it is afterwards
of_field() {
  rm -rf classes
  compiled 8 A.java "$2"
  compiled 8 Main.java 'public class Main { public static void main(String[] args) { A.n = 3; A a = null; for (int i = 0; i < 2; i++) { } } }'
  compiled 8 A.java "$3"
  check "$1" check job
}

of_field "$main it uses A.n I, which isn't static, by putstatic: class files of two builds" 'class A { static int n; }' 'class A { int n; }'

# by_call SENTENCE FIRST THEN: the same where Main calls a method of A by an interface or a class
by_call() {
  rm -rf classes
  compiled 8 A.java "$2"
  compiled 8 Main.java 'public class Main { public static void main(String[] args) { A a = null; a.f(); } }'
  compiled 8 A.java "$3"
  check "$main $1: class files of two builds" check job
}

by_call 'it uses A.f()V, which is of an interface, by invokevirtual' 'abstract class A { abstract void f(); }' 'interface A { void f(); }'
by_call 'it uses A.f()V, which is of no interface, by invokeinterface' 'interface A { void f(); }' 'public abstract class A { public abstract void f(); }'
rm -rf classes
compiled 8 B.java 'package p; public class B { }'
compiled 8 Main.java 'public class Main { public static void main(String[] args) { p.B b = null; for (int i = 0; i < 2; i++) { } } }'
compiled 8 B.java 'package p; class B { }'
check "$main it names p/B in a frame, which isn't public and stands in another package" check job
rm -rf classes
compiled 8 Oops.java 'class Oops extends RuntimeException { }'
compiled 8 Main.java 'public class Main { public static void main(String[] args) { int i = 0; try { i++; } catch (Oops e) { } } }'
compiled 8 Oops.java 'class Oops { }'
check "${main%:} at 2: iinc, which takes nothing; local 1 is an int; the handler there catches Oops, which isn't a Throwable: compile anew" check job

echo '# class files of which a few bytes are changed'

# patched SENTENCE TEXT CHANGE..: the class file of Main has these changes, each a command of sed over its bytes
patched() {
  rm -rf classes
  sentence=$1
  compiled 8 Main.java "public class Main { $2 }"
  shift 2
  for change in "$@"; do
    LC_ALL=C sed -i "$change" classes/Main.class
  done
  check "$sentence" check job
}

compile=': compile anew'
patched "class Main, f()J at 1: ireturn, which takes an int; on the stack: an int; the method returns a long$compile" 'static long f() { return 0; }' 's/\x09\xad/\x03\xac/'
patched "class Main, f()I at 1: return, which takes nothing; the stack is empty; the method returns an int$compile" 'static int f() { return 0; }' 's/\x03\xac/\x00\xb1/'
patched "class Main, f()I at 1: pop; on the stack: an int; no instruction stands behind it$compile" 'static int f() { return 0; }' 's/\x03\xac/\x03\x57/'
patched "class Main, f(I)I at 1: ifle, which takes an int; on the stack: an int; no frame is declared at 10, to which it leads$compile" 'static int f(int i) { while (i > 0) { i--; } return i; }' 's/StackMapTable/StackMapNone!/'
patched "class Main, f(I)I at 6: iconst_0, which takes nothing; no frame is declared there, and none arrives$compile" 'static int f(int i) { if (i > 0) { return 1; } return 0; }' 's/StackMapTable/StackMapNone!/' 's/\x9e\x00\x05/\x57\x00\x00/'
caught='public static void main(String[] args) { int i = 0; try { i++; } catch (RuntimeException e) { } }'
patched "classes/Main.class, ${at%, its code at}: a handler for 2 up to 2, which is empty" "$caught" 's/\x00\x02\x00\x05\x00\x08/\x00\x02\x00\x02\x00\x08/'
patched "classes/Main.class, ${at%, its code at}: a handler for 2 up to 5, which leads to 6: not all of them are places of instructions" "$caught" 's/\x00\x02\x00\x05\x00\x08/\x00\x02\x00\x05\x00\x06/'

echo '# ends of runs'

# run_ends STATUS SENTENCE TEXT..: a job runs whose Main has this text
run_ends() {
  status=$1 sentence="javasec: $2"
  rm -rf classes
  compiled 8 Main.java "$3"
  ends "$status" "$sentence" run --form=inspect job
}

run_ends 1 'an exception left a thread, as `uncaught` says; of a `deny .. domain D`, `policy JOB` lists what domain D has' 'public class Main { public static void main(String[] args) { throw new RuntimeException(); } }'
run_ends 4 'the run hasn'\''t ended after all its steps: `steps N` of the job sets how many, up to 1000000000000, else 10000000' 'public class Main { public static void main(String[] args) { while (true) { } } }'
run_ends 5 'the heap is full: `heap N` of the job sets how many cells it has, up to 16777216, else 1048576' 'public class Main { public static void main(String[] args) { String s = "a"; while (true) { s = s.concat(s); } } }'
run_ends 6 'threads wait for each other by `join`, and none can go on; of the job'\''s keys `schedule` alone may change that' 'public class Main implements Runnable { static Thread t; public void run() { try { t.join(); } catch (InterruptedException e) { } } public static void main(String[] args) { t = new Thread(new Main()); t.start(); } }'

echo '# files that are looked at once more'
mkfifo pipe
job 'code file:/a/' 'class pipe' 'main Main'
printf 'no class file' >pipe &
ends 3 '' check job
rm -rf classes
compiled 8 Main.java 'public class Main { public static void main(String[] args) { } }'
job 'code file:/a/' 'class classes/Main.class' 'class late' 'main Main'
rm -f late pipe
mkfifo pipe
ln -s pipe late
(
  exec 3>pipe
  sleep 1
  printf 'no class file' >classes/Main.class
  printf 'none' >&3
  rm late
  printf 'none' >late
) &
ends 3 '' check job
wait

echo '# the other library'
rm -rf classes
compiled 8 Main.java 'public class Main { public static void main(String[] args) { java.security.AccessController.getContext(); } }'
check "$main it uses java/security/AccessController.getContext()Ljava/security/AccessControlContext;, which the library of moved programs hasn't: \`check\` without the form" check --form=plain job
exit $failed
