#!/usr/bin/env python3
"""domains.py NUMBER CHECKS FOLDER: makes a job of so many code sources with a class each, of which each calls the next; the last checks a
permission so many times, which each source has. The folder's `job` is for `run` in either form."""
import os, subprocess, sys

number, checks, folder = int(sys.argv[1]), int(sys.argv[2]), sys.argv[3]
os.makedirs(folder, exist_ok=True)
PERMISSION = 'new java.util.PropertyPermission("x", "read")'
with open(folder + '/Chain.java', 'w') as out:
    for i in range(number):
        call = f'Chain{i + 1}.at();' if i + 1 < number else (
            f'java.util.PropertyPermission p = {PERMISSION};'
            f' for (int i = 0; i < {checks}; i = i + 1) java.security.AccessController.checkPermission(p);')
        name = 'Chain' if i == 0 else f'Chain{i}'
        head = 'public class' if i == 0 else 'class'
        body = f'static void at() {{ {call} }}'
        main = ' public static void main(String[] args) { at(); }' if i == 0 else ''
        out.write(f'{head} {name} {{ {body}{main} }}\n')
subprocess.run(['javac', '-g:none', '-nowarn', '--release', '8', 'Chain.java'], cwd=folder, check=True, stderr=subprocess.DEVNULL)
with open(folder + '/app.policy', 'w') as out:
    out.write('grant { permission java.util.PropertyPermission "x", "read"; };\n')
with open(folder + '/job', 'w') as out:
    out.write('policy app.policy\ndepth 10000\nheap 16777216\nsteps 100000000000\n')
    for i in range(number):
        name = 'Chain' if i == 0 else f'Chain{i}'
        out.write(f'code file:/{i}/\nclass {name}.class\n')
    out.write('main Chain\n')
