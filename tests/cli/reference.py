"""FrodoKEM-640-SHAKE and the margin in plain Python, written from the FrodoKEM standard proposal (2023) and docs/RULES.md, 4: what the program's answers are held against."""
import hashlib

N, Q, B, SECRET = 640, 1 << 15, 2, 16
H = Q >> (B + 1)
TABLE = [4643, 13363, 20579, 25843, 29227, 31145, 32103, 32525, 32689, 32745, 32762, 32766]


def shake(data, size):
    return hashlib.shake_128(data).digest(size)


def words(data):
    return [data[i] | data[i + 1] << 8 for i in range(0, len(data), 2)]


def sample(r):
    size = sum(t < r >> 1 for t in TABLE)
    return -size if r & 1 else size


def noise(data, count):
    return [sample(r) for r in words(shake(data, 2 * count))]


def matrix(seed_a):
    return [[w % Q for w in words(shake(i.to_bytes(2, "little") + seed_a, 2 * N))] for i in range(N)]


def pack(entries):
    number = 0
    for w in entries:
        number = number << 15 | w % Q
    return number.to_bytes(15 * len(entries) // 8, "big")


def dot(a, b):
    return sum(x * y for x, y in zip(a, b))


class Key:
    def __init__(self, seed):
        s, seed_se, z = seed[:SECRET], seed[SECRET:3 * SECRET], seed[3 * SECRET:]
        seed_a = shake(z, 16)
        self.a = matrix(seed_a)
        drawn = noise(b"\x5f" + seed_se, 16 * N)
        self.s = [drawn[j * N:(j + 1) * N] for j in range(8)]  # transposed: a row for each column of S
        self.e = [drawn[8 * N + 8 * i:8 * N + 8 * i + 8] for i in range(N)]
        self.b = [[dot(row, self.s[j]) + self.e[i][j] for j in range(8)] for i, row in enumerate(self.a)]
        self.public = seed_a + pack([w for row in self.b for w in row])
        self.pkh = shake(self.public, SECRET)
        self.secret = s + self.public + b"".join((w % 65536).to_bytes(2, "little") for row in self.s for w in row) + self.pkh

    def seal(self, message, salt):
        """The report, its secret and the margin's size."""
        drawn = shake(self.pkh + message + salt, 3 * SECRET)
        words_drawn = noise(b"\x96" + drawn[:2 * SECRET], 16 * N + 64)
        s = [words_drawn[i * N:(i + 1) * N] for i in range(8)]
        e = [words_drawn[(8 + i) * N:(9 + i) * N] for i in range(8)]
        e2 = [words_drawn[16 * N + 8 * i:16 * N + 8 * i + 8] for i in range(8)]
        columns = list(zip(*self.a))
        bits = int.from_bytes(message, "little")
        groups = [[bits >> B * (8 * i + j) & (1 << B) - 1 for j in range(8)] for i in range(8)]
        b_columns, e_columns = list(zip(*self.b)), list(zip(*self.e))
        c1 = pack([dot(s[i], columns[k]) + e[i][k] for i in range(8) for k in range(N)])
        c2 = pack([dot(s[i], b_columns[j]) + e2[i][j] + groups[i][j] * (Q >> B) for i in range(8) for j in range(8)])
        left = [dot(s[i], e_columns[j]) + e2[i][j] - dot(e[i], self.s[j]) for i in range(8) for j in range(8)]
        size = max(abs((x + Q // 2) % Q - Q // 2) for x in left)
        report = c1 + c2 + salt
        return report, shake(report + drawn[2 * SECRET:], SECRET), size
