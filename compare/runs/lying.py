"""A bridge whose maps are wrong, to see that it is found: lying.py BRIDGE..."""
import os
import subprocess
import sys

process = subprocess.Popen(sys.argv[1:], stdin=sys.stdin, stdout=subprocess.PIPE)
while data := os.read(process.stdout.fileno(), 1 << 20):
    os.write(sys.stdout.fileno(), data.replace(b"depth 0", b"depth 1"))
