"""The archive's stages and its sheet entry for Python, behind the process that `compare/runs/bridge.c` is."""
import struct
import subprocess

from model import POOL, Refused

SWEEP, CONNECT, OVERLAY = 1, 2, 3
# The mode of crossing in which sheets are worked.
ORDERED = 1


class Bridge:
    def __init__(self, command):
        self.process = subprocess.Popen(command, stdin=subprocess.PIPE, stdout=subprocess.PIPE)

    def __enter__(self):
        return self

    def __exit__(self, *_):
        self.process.stdin.close()
        self.process.wait()
        self.process.stdout.close()

    def put(self, *parts):
        self.process.stdin.write(b"".join(parts))
        self.process.stdin.flush()

    def get(self, format):
        size = struct.calcsize("<" + format)
        data = self.process.stdout.read(size)
        if len(data) != size:
            raise EOFError("the bridge stopped")
        return struct.unpack("<" + format, data)

    def rows(self, count, format):
        return [self.get(format) for _ in range(count)]

    def overlay(self, data, room):
        """The text that the C entry writes in so many bytes."""
        self.put(struct.pack("<III", OVERLAY, len(data), room), data)
        number, place, length = self.get("QQQ")
        (text,) = self.get(f"{length}s")
        if number:
            raise Refused(number, place)
        return text

    def sweep(self, sheet):
        edges = sheet.edges
        ends = b"".join(struct.pack("<4d", *edge[:4]) for edge in edges)
        labels = b"".join(struct.pack("<2I", *edge[4:]) for edge in edges)
        self.put(struct.pack("<5I", SWEEP, len(edges), sheet.operation, ORDERED, POOL), ends, labels)
        loading, sweeping, place = self.get("3Q")
        taken, _, used, _ = self.get("4I")
        pool = self.get(f"{16 * used + 48 * used}s")
        listed = self.get(f"{4 * taken}s")
        if loading or sweeping:
            raise Refused(loading or sweeping, place)
        return used, taken, pool + listed

    def connect(self, used, taken, records):
        """With as much room as a pool can want."""
        self.put(struct.pack("<6I", CONNECT, used, taken, POOL, POOL, POOL), *records)
        number, place = self.get("2Q")
        contours, corners, holes, _ = self.get("4I")
        self.get(f"{48 * used}s")
        points = self.rows(corners, "2d")
        found = self.rows(contours, "6I")
        hole_numbers = self.get(f"{holes}I")
        if number:
            raise Refused(number, place)
        return found, points, hole_numbers

    def stages(self, sheet):
        """Contours, points and hole numbers; only the places in use are connected."""
        return self.connect(*self.sweep(sheet))
