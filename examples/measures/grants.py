#!/usr/bin/env python3
"""grants.py NUMBER FOLDER: makes a job of so many code sources under as many grants, one for each, for `policy`."""
import os, sys

number, folder = int(sys.argv[1]), sys.argv[2]
os.makedirs(folder, exist_ok=True)
with open(os.path.join(folder, "app.policy"), "w") as out:
    for k in range(number):
        out.write('grant codeBase "file:/s%d/" { permission java.util.PropertyPermission "n%d", "read"; };\n' % (k, k))
with open(os.path.join(folder, "job"), "w") as out:
    out.write("policy app.policy\n" + "".join("code file:/s%d/\n" % k for k in range(number)) + "main Main\n")
