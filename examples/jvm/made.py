#!/usr/bin/env python3
"""made.py SEED N FOLDER: writes N random Java programs, with a policy and a job each, into FOLDER (mK/Main.java, mK.policy, mK.job). They ask
for permissions in privileges, under limits, by kept contexts, across code sources, in threads by a schedule, and through exceptions."""
import os
import random
import sys

SOURCES = ['file:/d%d/', 'file:///lib %d/', 'HTTP://Example.com:80/a/../m%d/', 'https://h.example/~%d/', 'file:/srv/%%41%d/']
READS = ['"read"', '"write"', '"read,write"', '" Write ,READ"', '"write,read"']
NAMES = ['a', 'a.b', 'b.c', 'a.', 'x y', 'q\\" \\"z', '*', 'a.*', '\u00e9', 'back\\\\slash']
PATHS = ['/a/b', '/a/b/c', '/a/-', '/a/*', '/a/./b/../b', 'x', '../x', '-', '*', '<<ALL FILES>>', '', '/', '/-', 'x/-', '/w/x']
FILES = ['"read"', '"write"', '"read,execute"', '"delete"', '"readlink,read"', '"EXECUTE"']
BAD = ['new PropertyPermission("", "read")', 'new PropertyPermission("a", "raed")', 'new PropertyPermission(null, null)',
       'new PropertyPermission("a", "execute")', 'new FilePermission("/a", "read,,write")', 'new FilePermission(null, "x")',
       'new RuntimePermission("")', 'new RuntimePermission(null)', 'new PropertyPermission("a", null)', 'new FilePermission("/a", "")',
       'new PropertyPermission("a", "\u0131read")', 'new FilePermission("/a", "readlin\u212a")']
THROWN = ['IllegalStateException', 'ArithmeticException', 'SecurityException', 'Error', 'Own', 'Denied']
CAUGHT = ['RuntimeException', 'SecurityException', 'AccessControlException', 'Own', 'Throwable', 'IllegalStateException']


class Program:
    def __init__(self, k, seed):
        self.k, self.r, self.id, self.vars = k, random.Random(seed * 1000003 + k), 0, 0
        self.domains = self.r.randrange(1, 5)
        self.actions, self.threads = self.r.randrange(1, 4), self.r.randrange(0, 3)

    def permission(self, quoted=False):
        """A permission, as Java or as an entry of a policy."""
        kind = self.r.choice(['property'] * 4 + ['runtime'] * 2 + ['security'] + ['file'] * 3)
        name = self.r.choice(PATHS if kind == 'file' else NAMES[:4] * 2 + NAMES)
        words = {'property': ('java.util.PropertyPermission', self.r.choice(READS)), 'runtime': ('java.lang.RuntimePermission', ''),
                 'security': ('java.security.SecurityPermission', self.r.choice(['', '"x"'])),
                 'file': ('java.io.FilePermission', self.r.choice(FILES))}
        cls, actions = words[kind]
        args = '"%s"' % name + (', ' + actions if actions else '')
        return 'permission %s %s;' % (cls, args) if quoted else 'new %s(%s)' % (cls.split('.')[-1], args)

    def any(self, what, n):
        return '%s%d' % (what, self.r.randrange(n))

    def asked(self):
        return self.r.choice(['S.' + self.any('p', 4)] * 4 + [self.permission()] * 3 + ['new AllPermission()'] + ['null'] * (self.r.random() < .1))

    def action(self):
        return 'new K%dA%d()' % (self.r.randrange(self.domains), self.r.randrange(self.actions))

    def context(self):
        return self.r.choice(['S.' + self.any('c', 3)] * 5 + ['null', 'AccessController.getContext()'])

    def limits(self):
        if self.r.random() < .04:
            return '(Permission[]) null'
        items = [self.asked() for _ in range(self.r.choice([0, 1, 1, 2, 3]))]
        return 'new Permission[] {%s}' % ', '.join(items) if len(items) != 1 or self.r.random() < .5 or items[0] == 'null' else items[0]

    def number(self):
        return self.r.choice(['S.n', str(self.r.randrange(-9, 99)), 'S.n * 31', 'S.n >>> 3', '(S.n ^ 5)', 'S.text.length()'])

    def guarded(self, what):
        self.id += 1
        self.vars += 1
        v = 'e%d' % self.vars
        tell = self.r.choice(['System.out.println("no %d " + %s.getMessage());' % (self.id, v), 'System.out.println("no %d");' % self.id])
        return 'try { %s; System.out.println("ok %d"); } catch (AccessControlException %s) { %s }' % (what, self.id, v, tell)

    def check(self):
        return 'AccessController.checkPermission(%s)' % self.asked()

    def statement(self, depth):
        r, some = self.r, self.statements
        if depth > 0 and r.random() < .25:
            self.vars += 1
            v = 'v%d' % self.vars
            return r.choice([
                lambda: 'if (%s %s %s) { %s } else { %s }' % (
                    self.number(), r.choice(['<', '==', '>=']), self.number(), some(depth - 1), some(depth - 1)),
                lambda: 'for (int %s = 0; %s < %d; %s++) { %s }' % (v, v, r.randrange(1, 4), v, some(depth - 1)),
                lambda: 'try { %s } catch (%s %s) { System.out.println("caught %d"); %s }' % (
                    some(depth - 1), r.choice(CAUGHT), v, self.vars, some(depth - 1)),
                lambda: 'try { %s } finally { S.n += 7; %s }' % (some(depth - 1), some(depth - 1)),
            ])()
        return r.choice(
            [lambda: self.guarded(self.check())] * 6 + [lambda: self.check() + ';'] + [
                lambda: 'S.%s = AccessController.getContext();' % self.any('c', 3),
                lambda: 'if (S.c1 != null) { %s }' % self.guarded('S.c1.checkPermission(%s)' % self.asked()),
                lambda: self.guarded('S.%s.checkPermission(%s)' % (self.any('c', 3), self.asked())),
                lambda: 'S.%s = %s;' % (self.any('p', 4), self.permission()),
                lambda: 'try { S.p0 = %s; System.out.println("made"); } '
                'catch (IllegalArgumentException | NullPointerException e) { System.out.println(%s); }'
                % (r.choice(BAD), 'e instanceof NullPointerException')]
            + [lambda: 'S.last = AccessController.doPrivileged(%s);' % self.action()] * 2
            + [lambda: 'S.last = AccessController.doPrivileged(%s, %s);' % (self.action(), self.context())] * 2
            + [lambda: 'S.last = AccessController.doPrivileged(%s, %s, %s);' % (self.action(), self.context(), self.limits())] * 3
            + [lambda: 'K%d.s%d(%s);' % (r.randrange(self.domains), r.randrange(2), self.number())] * 3
            + [lambda: 'S.n = S.%s.go(%s);' % (self.any('o', 2), self.number()),
               lambda: 'S.%s = new K%dO(%s);' % (self.any('o', 2), r.randrange(self.domains), self.number()),
               lambda: 'System.out.println(%s);' % r.choice(['S.n', '"n=" + S.n + \'\\t\' + (S.n > 3)', 'S.text', '(long) S.n << 40', '(char) S.n',
                                                             'S.o0 instanceof K0O', '"\\\\ \u20ac \ud83d\ude00"', 'S.last == null']),
               lambda: 'System.out.println();', lambda: 'S.text = S.text.length() > 30 ? "t" : S.text.concat("x" + S.n);',
               lambda: 'S.cells[%s & 3] += %s;' % (self.number(), self.number()), lambda: 'S.n = %s;' % self.number(),
               lambda: 'if (S.n %% 5 == %d) { throw new %s("t" + S.n); }' % (r.randrange(5), r.choice(THROWN))]
            + [lambda: 'Thread.yield();', self.make, self.make, self.start, self.start, self.start, self.join, self.join] * (self.threads > 0))()

    def make(self):
        return 'if (S.made < 12) { S.made++; S.%s = new Thread(%s); }' % (
            self.any('t', 3), '(Runnable) null' if self.r.random() < .05 else
            'new K%dR%d()' % (self.r.randrange(self.domains), self.r.randrange(self.threads)))

    def start(self):
        t = 'S.' + self.any('t', 3)
        start = t + '.start();' if self.r.random() < .1 else 'try { %s.start(); } ' \
            'catch (IllegalThreadStateException e) { System.out.println("again"); }' % t
        return 'if (%s != null) { %s }' % (t, start)

    def join(self):
        t = 'S.' + self.any('t', 3)
        return 'if (%s != null) { try { %s.join(); } catch (InterruptedException e) { System.out.println("woken"); } }' % (t, t)

    def statements(self, depth, most=3):
        return ' '.join(self.statement(depth) for _ in range(self.r.randrange(1, most + 1)))

    def kept(self):
        """Some statements; where they fail, the program mostly goes on."""
        text = self.statements(2, 5)
        return text if self.r.random() < .2 else 'try { %s } catch (RuntimeException e) { System.out.println("goes on"); }' % text

    def body(self, end=''):
        return 'if (S.fuel <= 0) { return%s; } S.fuel--; %s' % (end, self.statements(2))

    def domain(self, j):
        out = ['class K%d { %s }' % (j, ' '.join('static void s%d(int a) { S.n += a; %s }' % (i, self.body()) for i in range(2)))]
        for i in range(self.actions):
            out.append('class K%dA%d implements PrivilegedAction<Object> { public Object run() { %s return %s; } }'
                       % (j, i, self.body(' null'), self.r.choice(['null', '"r"', 'S.o0', 'this'])))
        for i in range(self.threads):
            out.append('class K%dR%d implements Runnable { public void run() { %s } }' % (j, i, self.body()))
        out.append('class K%dO extends Base { K%dO(int f) { super(f); } int up(int x) { %s return x + f; } }' % (j, j, self.body(' f')))
        return out

    def source(self):
        out = ['package m%d;' % self.k, 'import java.io.FilePermission;', 'import java.security.*;', 'import java.util.PropertyPermission;',
               'class S { static int fuel, n, made; static AccessControlContext c0, c1, c2; static Permission p0, p1, p2, p3;',
               '  static Thread t0, t1, t2;',
               '  static I o0, o1; static Object last; static String text; static int[] cells; static final String WORD = "java/lang/Thread"; }',
               'interface I { int go(int x); }',
               'abstract class Base implements I { int f; Base(int f) { this.f = f; } abstract int up(int x);',
               '  public int go(int x) { return up(x) ^ f; } }',
               'class Own extends RuntimeException { Own(String s) { super(s); } }',
               'class Denied extends AccessControlException { Denied(String s) { super(s); } }']
        for j in range(self.domains):
            out += self.domain(j)
        begin = 'S.fuel = %d; S.text = S.WORD; S.cells = new int[4]; S.o0 = new K0O(1); S.o1 = new K%dO(2); ' % (
            self.r.randrange(20, 70), self.domains - 1)
        begin += ' '.join('S.p%d = %s;' % (i, self.permission()) for i in range(4))
        out.append('public class Main { public static void main(String[] args) { %s %s %s %s } }'
                   % (begin, self.kept(), 'try { K%d.s0(1); } finally { %s }' % (self.domains - 1, self.kept()), self.kept()))
        return '\n'.join(out) + '\n'

    def classes(self, j):
        first = ['Main', 'S', 'I', 'Base', 'Own', 'Denied'] if j == 0 else []
        inner = ['A%d' % i for i in range(self.actions)] + ['R%d' % i for i in range(self.threads)] + ['', 'O']
        return first + ['K%d%s' % (j, name) for name in inner]

    def files(self):
        code = [self.r.choice(SOURCES) % j for j in range(self.domains)]
        grants = []
        for url in [None] + code:
            entries = [self.permission(True) for _ in range(self.r.choice([0, 1, 3, 6]))]
            entries += ['permission java.security.AllPermission;'] * (self.r.random() < .12 and url is not None)
            entries += ['permission m.Other "x";', 'permission java.util.PropertyPermission "a", "rread";'] * (self.r.random() < .2)
            grants.append('grant %s{ %s };' % ('' if url is None else 'codeBase "%s" ' % url, ' '.join(entries)))
        job = ['policy m%d.policy' % self.k, 'cwd ' + self.r.choice(['/', '/w', '/a/b']), 'heap 16777216', 'steps 100000000']
        for j, url in enumerate(code):
            job += ['code ' + url] + ['class classes/m%d/%s.class' % (self.k, c) for c in self.classes(j)]
        job += ['main m%d/Main' % self.k]
        if self.threads and self.r.random() < .9:
            job.append('schedule ' + ' '.join(str(self.r.choice([0, 1, 2, 3, 7, 4294967295])) for _ in range(60)))
        return '\n'.join(grants) + '\n', '\n'.join(job) + '\n'


def write(path, text):
    with open(path, 'w', encoding='utf-8', errors='surrogatepass') as f:
        f.write(text)


def main():
    seed, n, folder = int(sys.argv[1]), int(sys.argv[2]), sys.argv[3]
    for k in range(n):
        made = Program(k, seed)
        os.makedirs(os.path.join(folder, 'm%d' % k), exist_ok=True)
        source = made.source().encode('utf-16', 'surrogatepass').decode('utf-16')
        write(os.path.join(folder, 'm%d' % k, 'Main.java'), source)
        policy, job = made.files()
        write(os.path.join(folder, 'm%d.policy' % k), policy)
        write(os.path.join(folder, 'm%d.job' % k), job)


if __name__ == '__main__':
    if len(sys.argv) != 4:
        sys.exit(__doc__)
    main()
