"""The oracle as a function, and what the lists' scripts share. Build it first: tests/oracle/build."""
import hashlib
import pathlib
import subprocess

ROOT = pathlib.Path(__file__).resolve().parents[2]
N = {1: 640, 2: 976, 3: 1344}
D = {1: 15, 2: 16, 3: 16}
B = {1: 2, 2: 3, 3: 4}
SECRET = {1: 16, 2: 24, 3: 32}
SEED_SE = {1: 32, 2: 48, 3: 64}


class Oracle:
    """`ask("encode", 1, "1b00..")` gives the answer's fields; a panic or an error is an exception that says so."""

    def __init__(self):
        program = ROOT / "build/oracle/target/release/oracle"
        if not program.exists():
            raise SystemExit(f"{program} is not there: run tests/oracle/build first")
        self.process = subprocess.Popen([program], stdin=subprocess.PIPE, stdout=subprocess.PIPE, text=True)

    def ask(self, *fields):
        self.process.stdin.write(" ".join(str(f) for f in fields) + "\n")
        self.process.stdin.flush()
        said = self.process.stdout.readline().split()
        if not said or said[0] != "ok":
            raise RuntimeError(f"{fields[0]} {fields[1]}: {' '.join(said)}")
        return said[1:]


def text(data):
    """Bytes as the lists write them."""
    return data.hex() or "-"


def words(values):
    """Little-endian words as bytes."""
    return b"".join(v.to_bytes(2, "little") for v in values)


def unwords(data):
    return [int.from_bytes(data[i : i + 2], "little") for i in range(0, len(data), 2)]


def random(label, n):
    """n bytes that depend on the label alone, so that a list can be made again."""
    return hashlib.shake_256(label.encode()).digest(n)


def digest(data):
    """What stands in a list for a long answer: 16 bytes of SHAKE256."""
    return hashlib.shake_256(data).hexdigest(16)


def write(name, lines):
    to = ROOT / "crates" / name
    to.parent.mkdir(parents=True, exist_ok=True)
    to.write_text("\n".join(lines) + "\n")
    print(f"{to.relative_to(ROOT)}: {sum(not l.startswith('#') for l in lines)} lines, {to.stat().st_size} bytes")
