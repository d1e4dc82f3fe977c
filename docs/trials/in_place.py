#!/usr/bin/python3
"""Kills a mending of FILE in its place at random moments, and counts what stands in the folder then.

At each moment FILE is to be as it was, or the new one; then FILE.before is as FILE was. Usage: in_place.py PROGRAM FILE
[KILLS]
"""

import collections, os, random, shutil, subprocess, sys, tempfile, time

PROGRAM, FILE = map(os.path.abspath, sys.argv[1:3])
KILLS = int(sys.argv[3]) if len(sys.argv) > 3 else 120


def content(name):
    with open(name, "rb") as file:
        return file.read()


def begin():
    for name in os.listdir("."):
        os.remove(name)
    shutil.copy(FILE, "f.tdb")


def main():
    os.chdir(tempfile.mkdtemp(prefix="place"))
    old = content(FILE)
    begin()
    start = time.time()
    subprocess.run([PROGRAM, "mend", "f.tdb"], capture_output=True)
    span, new = time.time() - start, content("f.tdb")
    counts = collections.Counter()
    for _ in range(KILLS):
        begin()
        run = subprocess.Popen([PROGRAM, "mend", "f.tdb"], stdout=subprocess.PIPE, stderr=subprocess.PIPE)
        time.sleep(1.1 * span * random.random())
        run.kill()
        run.wait()
        now = content("f.tdb")
        is_kept = os.path.exists("f.tdb.before") and content("f.tdb.before") == old
        stands = "old" if now == old else "new, kept" if now == new and is_kept else "OTHER"
        counts[stands, *sorted(set(os.listdir(".")) - {"f.tdb"})] += 1
    for found, count in sorted(counts.items()):
        print(count, *found)
    begin()
    shutil.copy(FILE, "f.tdb.tmp")
    again = subprocess.run([PROGRAM, "mend", "f.tdb"], capture_output=True, text=True)
    print(again.stdout.strip(), again.returncode, *sorted(os.listdir(".")))
    shutil.rmtree(os.getcwd())


main()
