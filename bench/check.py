#!/usr/bin/env python3
"""Tests a program against a slow, literal Python program of the same job, on the example, on each
fault with its place, on inputs around the greatest length, and on many random and damaged inputs:
python3 bench/check.py PROGRAM"""

import random
import subprocess
import sys


class Fault(Exception):
    pass


def need(holds, part, number, place):
    if not holds:
        raise Fault(f"fault {part} {number} {place}\n")


def walk(data, out):
    end = len(data)
    need(end <= 65536, "I", 29, 65536)
    need(end >= 12, "P", 13, end)
    need(data[0] == 0x20, "P", 14, 0)
    s, a, start = data[1], data[2], data[3]
    need(1 <= s <= 64, "P", 15, 1)
    need(1 <= a <= 64, "P", 16, 2)
    need(start < s, "P", 17, 3)
    finals = {q for q in range(64) if data[4 + q // 8] >> q % 8 & 1}
    need(all(q < s for q in finals), "P", 18, 4)
    at = 12 + s * a
    need(end >= at, "P", 19, end)
    for i in range(12, at):
        need(data[i] < s, "P", 20, i)
    need(at < end and data[at] == 0x30, "L", 22, at)
    need(at + 1 < end, "L", 19, end)
    c = data[at + 1]
    need(1 <= c <= 64, "L", 16, at + 1)
    entries = data[at + 2 : at + 2 + c]
    need(len(entries) == c, "L", 19, end)
    for i, l in enumerate(entries):
        need(l < a, "L", 20, at + 2 + i)
    at += 2 + c
    out.append("unit mark preds states some all\n")
    first = True
    while True:
        here = at
        need(here < end, "R", 23, end)
        kind = data[here]
        need(kind in (0, 1, 2, 3, 0x10), "R", 24, here)
        operands = 0 if kind == 0 else 2
        at = here + 1 + operands
        need(at <= end, "R", 25, here)
        need(not first or kind == 0x10, "R", 26, here)
        need(first or kind != 0x10, "R", 27, here)
        refuse = lambda holds, number: need(holds, "B", number, here)
        if kind == 0:
            need(at == end, "R", 28, at)
            out.append(f"left {sum(w == 'sent' for w in way)}\n")
            return
        x, y = data[here + 1], data[here + 2]
        if kind == 0x10:
            n, k = x, y
            refuse(1 <= n <= 16, 1)
            new = [(0, False, frozenset([start]))] * n
            rows = [list(new) for _ in range(n + k)]
            way = ["new"] * k
            first = False
            continue
        refuse(x < n, 4)
        if kind == 1:
            refuse(y < k, 5)
            refuse(way[y] == "new", 7)
            rows[n + y] = list(rows[x])
            way[y] = "sent"
        elif kind == 2:
            refuse(y < k, 5)
            refuse(way[y] != "new", 8)
            refuse(way[y] != "received", 9)
            for j in range(n):
                theirs, own = rows[n + y][j], rows[x][j]
                if theirs[0] > own[0]:
                    rows[x][j] = theirs
                elif theirs[0] == own[0]:
                    flag = theirs[1] and own[1]
                    rows[x][j] = (own[0], flag, own[2] if flag else frozenset([start]))
            way[y] = "received"
        else:
            refuse(y < c, 6)
            clock = rows[x][x][0]
            refuse(clock < 65535, 10)
            preds = [j for j in range(n) if rows[x][j][1]]
            joined = set().union(*(rows[x][j][2] for j in preds)) if preds else {start}
            w = frozenset(data[12 + q * a + entries[y]] for q in joined)
            for j in range(n):
                rows[x][j] = (rows[x][j][0], False, frozenset([start]))
            rows[x][x] = (clock + 1, True, w)
            preds = sum(1 << j for j in preds)
            bits = sum(1 << q for q in w)
            some, every = int(bool(w & finals)), int(w <= finals)
            out.append(f"{x} {clock + 1} {preds} {bits:016x} {some} {every}\n")


def expected(data):
    out = []
    try:
        walk(data, out)
    except Fault as fault:
        out.append(str(fault))
    return "".join(out).encode()


seen = {}


def check(data, text=None):
    want = expected(data)
    if text is not None:
        assert want == text.encode(), (data[:80], want, text)
    run = subprocess.run([sys.argv[1]], input=data, capture_output=True)
    if run.returncode != 0 or run.stderr or run.stdout != want:
        with open("failed.bin", "wb") as file:
            file.write(data)
        sys.exit(f"differs (input in failed.bin): {run.stdout[-200:]!r}, expected {want[-200:]!r}")
    key = tuple(want.split(b"\n")[-2].split()[:3])
    key = key if key[0] == b"fault" else key[:1]
    seen[key] = seen.get(key, 0) + 1


P = bytes.fromhex("20 05 03 00 08 00 00 00 00 00 00 00 04 01 04 02 01 04 02 01 03 04 01 04 04 04 04")
L = bytes.fromhex("30 03 01 02 00")
HEAD = "unit mark preds states some all\n"


def at_start(text, line):
    check(bytes.fromhex(text), line + "\n")


def after_pattern(text, line):
    check(P + bytes.fromhex(text), line + "\n")


def recorded(text, line):
    check(P + L + bytes.fromhex(text), HEAD + line + "\n")


def plain():
    example = "10 02 02 03 00 02 01 00 01 03 01 00 01 01 00 02 01 01 02 00 00 03 01 01 00"
    recorded(
        example,
        "0 1 0 0000000000000010 0 0\n1 1 0 0000000000000002 0 0\n1 2 3 0000000000000010 0 0\nleft 0",
    )
    recorded("10 02 02 02 00 00 00", "fault B 8 35")
    at_start("", "fault P 13 0")
    at_start("20 05 03 00 08 00 00 00 00 00 00", "fault P 13 11")
    at_start("21" + "00" * 11, "fault P 14 0")
    at_start("20 00" + "00" * 10, "fault P 15 1")
    at_start("20 41" + "00" * 10, "fault P 15 1")
    at_start("20 01 00" + "00" * 9, "fault P 16 2")
    at_start("20 01 41" + "00" * 9, "fault P 16 2")
    at_start("20 05 03 05" + "00" * 8, "fault P 17 3")
    at_start("20 05 03 00 20" + "00" * 7, "fault P 18 4")
    at_start("20 3f 03 00 00 00 00 00 00 00 00 80", "fault P 18 4")
    at_start("20 40 01 00 ff ff ff ff ff ff ff ff", "fault P 19 12")
    at_start("20 05 03 00 08 00 00 00 00 00 00 00 00 05", "fault P 19 14")
    at_start("20 02 02 00 00 00 00 00 00 00 00 00 00 01 02 03", "fault P 20 14")
    after_pattern("", "fault L 22 27")
    after_pattern("31 01 00", "fault L 22 27")
    after_pattern("30", "fault L 19 28")
    after_pattern("30 00", "fault L 16 28")
    after_pattern("30 41", "fault L 16 28")
    after_pattern("30 03 00 05", "fault L 19 31")
    after_pattern("30 03 00 03 04", "fault L 20 30")
    recorded("", "fault R 23 32")
    recorded("05", "fault R 24 32")
    recorded("01", "fault R 25 32")
    recorded("10 02", "fault R 25 32")
    recorded("00", "fault R 26 32")
    recorded("00 00 00", "fault R 26 32")
    recorded("03 00 00", "fault R 26 32")
    recorded("10 02 02", "fault R 23 35")
    recorded("10 02 02 04", "fault R 24 35")
    recorded("10 02 02 10 02", "fault R 25 35")
    recorded("10 02 02 03 00", "fault R 25 35")
    recorded("10 02 02 10 02 02", "fault R 27 35")
    recorded("10 02 02 00 00", "fault R 28 36")
    recorded("10 02 02 00", "left 0")
    recorded("10 00 02 00", "fault B 1 32")
    recorded("10 11 02 00", "fault B 1 32")
    recorded("10 01 00 01 00 00", "fault B 5 35")
    recorded("10 10 ff 01 0f fe 01 00 00 00", "left 2")
    for kind in "01", "02", "03":
        recorded(f"10 02 02 {kind} 02 ff", "fault B 4 35")
    recorded("10 02 02 01 01 02", "fault B 5 35")
    recorded("10 02 02 02 01 02", "fault B 5 35")
    recorded("10 02 02 03 01 03", "fault B 6 35")
    recorded("10 02 02 01 01 01 01 00 01", "fault B 7 38")
    recorded("10 02 02 01 01 01 02 01 01 01 00 01", "fault B 7 41")
    recorded("10 02 02 02 01 01", "fault B 8 35")
    recorded("10 02 02 01 01 01 02 01 01 02 00 01", "fault B 9 41")


def lengths():
    body = P + bytes([0x30, 4, 1, 2, 0, 1]) + bytes([0x10, 1, 0])
    full = body + bytes([3, 0, 0]) * ((65535 - len(body)) // 3) + b"\0"
    assert len(full) == 65536
    check(full)
    assert expected(full).endswith(b"\nleft 0\n")
    check(full[:-1])
    check(full + b"\0", "fault I 29 65536\n")
    check(full + full, "fault I 29 65536\n")
    check(bytes(65536), "fault P 14 0\n")
    check(bytes(65537), "fault I 29 65536\n")
    # A slow writer: the input comes in small parts.
    run = subprocess.Popen([sys.argv[1]], stdin=subprocess.PIPE, stdout=subprocess.PIPE)
    for i in range(0, len(full), 4099):
        run.stdin.write(full[i : i + 4099])
        run.stdin.flush()
    out = run.communicate()[0]
    assert run.returncode == 0 and out == expected(full)


def some_input(r):
    """A legal input most of the time, with messages sent and received a lot."""
    s, a, c = r.choice([1, 2, 5, 63, 64]), r.randint(1, 8), r.randint(1, 64)
    finals = r.getrandbits(64) & (1 << s) - 1
    data = bytearray([0x20, s, a, r.randrange(s)]) + finals.to_bytes(8, "little")
    data += bytes(r.randrange(s) for _ in range(s * a))
    data += bytes([0x30, c]) + bytes(r.randrange(a) for _ in range(c))
    n, k = r.choice([1, 2, 3, 10, 16]), r.choice([0, 1, 5, 40, 255])
    data += bytes([0x10, n, k])
    new, sent = list(range(k)), []
    r.shuffle(new)
    for _ in range(r.choice([3, 30, 300])):
        kind = r.choice([1, 2, 3, 3])
        if kind == 1 and new:
            sent.append(new.pop())
            data += bytes([1, r.randrange(n), sent[-1]])
        elif kind == 2 and sent:
            data += bytes([2, r.randrange(n), sent.pop(r.randrange(len(sent)))])
        else:
            data += bytes([3, r.randrange(n), r.randrange(c)])
    return data + b"\0"


def damaged(r, data):
    data = bytearray(data)
    way = r.randrange(4)
    place = r.randrange(len(data)) if r.random() < 0.6 else r.randrange(min(len(data), 40))
    if way == 0:
        data[place] = r.choice([0, 1, 2, 3, 4, 5, 16, 17, 64, 65, 255])
    elif way == 1:
        del data[place:]
    elif way == 2:
        del data[place]
    else:
        data.insert(place, r.choice([0, 1, 2, 3, 16, 255]))
    return bytes(data)


def main():
    plain()
    lengths()
    r = random.Random(1)
    for _ in range(1500):
        data = some_input(r)
        check(data)
        check(damaged(r, data))
    for key in sorted(seen):
        print(seen[key], b" ".join(key).decode())


main()
