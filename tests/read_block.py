"""Reads blocks with uncompressed chunks straight from their bytes, and compares them with `promtool tsdb
dump`.

    read_block.py texts DIR [large]
        writes texts of OpenMetrics into DIR
    read_block.py compare DIGITS REST TOLD TSDB.. -- BLOCK..
        the blocks hold what `promtool tsdb dump` prints of each TSDB, the later wins, times 10^DIGITS, other
        values dropped or rounded; the counts in TOLD are right
    read_block.py text DIGITS REST TOLD TEXT -- BLOCK..
        the blocks hold the samples that a text writes, read as decimals, other values dropped or rounded; of
        two at one time that of the later line; the counts are right
    read_block.py reply BLOCK..
        prints the rows of the blocks as a reply
    read_block.py same DIGITS TSDB -- BLOCK..
        `promtool tsdb dump` of the TSDB prints the blocks' samples
    read_block.py doubles TOLD TSDB -- BLOCK..
        the blocks hold as doubles, bit for bit, what `promtool tsdb dump` prints of the TSDB, and all of it
    read_block.py shown TSDB TEXT
        the text of OpenMetrics has each sample as `promtool tsdb dump` prints it of the TSDB
    read_block.py delete BLOCK
        deletes of each third series the times of its second quarter
    read_block.py change BLOCKTOOL TSDB DIR
        flips each bit of the block in TSDB: refused, or the same
"""
import ast
import glob
import json
import multiprocessing
import os
import random
import re
import shutil
import struct
import subprocess
import sys
from collections import Counter
from decimal import Decimal
from fractions import Fraction


def uvar(b, p):
    n = s = 0
    while True:
        c = b[p]
        p += 1
        n |= (c & 127) << s
        s += 7
        if c < 128:
            return n, p


def var(b, p):
    n, p = uvar(b, p)
    return (n >> 1) ^ -(n & 1), p


def references(d):
    """The reference of each series of an index, and its labels."""
    ix = open(d + "/index", "rb").read()
    toc = struct.unpack(">6Q", ix[-52:-4])
    p, end = toc[1], toc[2] or toc[4]
    while p < end:
        p += -p % 16
        if p >= end:
            break
        l, q = uvar(ix, p)
        if l == 0:
            break
        yield p // 16, ix[q : q + l]
        p = q + l + 4


def block(d):
    ix = open(d + "/index", "rb").read()
    ch = open(d + "/chunks/000001", "rb").read()
    toc = struct.unpack(">6Q", ix[-52:-4])
    sym, ser, labi = toc[0], toc[1], toc[2]
    n = struct.unpack(">I", ix[sym + 4 : sym + 8])[0]
    p = sym + 8
    syms = []
    for _ in range(n):
        l, p = uvar(ix, p)
        syms.append(ix[p : p + l].decode())
        p += l
    out = {}
    p = ser
    end = labi or toc[4]
    while p < end:
        if p % 16:
            p += 16 - p % 16
        if p >= end:
            break
        l, q = uvar(ix, p)
        if l == 0:
            break
        e = q + l
        k, q = uvar(ix, q)
        labels = []
        for _ in range(k):
            a, q = uvar(ix, q)
            v, q = uvar(ix, q)
            labels.append((syms[a], syms[v]))
        c, q = uvar(ix, q)
        refs = []
        mint, q = var(ix, q)
        w, q = uvar(ix, q)
        ref, q = uvar(ix, q)
        maxt = mint + w
        refs.append((ref, mint, maxt))
        for _ in range(c - 1):
            g, q = uvar(ix, q)
            w, q = uvar(ix, q)
            dr, q = var(ix, q)
            mint = maxt + g
            maxt = mint + w
            ref += dr
            refs.append((ref, mint, maxt))
        assert q == e
        s = []
        for ref, mint, maxt in refs:
            l, q = uvar(ch, ref)
            assert ch[q] == 0xE0
            q += 1
            cnt = struct.unpack(">H", ch[q : q + 2])[0]
            q += 2
            for i in range(cnt):
                s.append(struct.unpack(">qq", ch[q + 16 * i : q + 16 * i + 16]))
        out[tuple(labels)] = s
        p = e + 4
    return out


def blocks(ds):
    out = {}
    for d in ds:
        for k, s in block(d).items():
            out.setdefault(k, []).extend(s)
    return out


LAB = re.compile(r'([a-zA-Z_][a-zA-Z0-9_]*)=("(?:[^"\\]|\\.)*")')


def dump(lines, digits, rest):
    out = {}
    left = 0
    rounded = 0
    for line in lines:
        i = line.rindex("} ")
        lab = line[1:i]
        v, t = line[i + 2 :].split()
        key = tuple(sorted((a, ast.literal_eval(b)) for a, b in LAB.findall(lab)))
        if v in ("NaN", "+Inf", "-Inf"):
            left += 1
            continue
        f = float(v)
        whole = f == int(f)
        x = (Decimal(int(f)) if whole else Decimal(repr(f))).scaleb(digits)
        if x != x.to_integral_value() or abs(x) >= (2**63 if whole else 10**15):
            # Python rounds a fraction to the nearest whole number, and a half to the even one
            x = round(Fraction(f) * 10**digits)
            if rest != "round" or abs(x) >= 2**63:
                left += 1
                continue
            rounded += 1
        out.setdefault(key, []).append((int(t), int(x)))
    return out, left, rounded


def texts(folder, large):
    random.seed(7)

    def write(name, series):
        with open(f"{folder}/{name}.om", "w") as f:
            for metric, rows in series:
                f.write(f"# TYPE {metric} gauge\n")
                for labels, value, t in rows:
                    f.write(f"{metric}{labels} {value} {t}\n")
            f.write("# EOF\n")

    def many(name, series, samples):
        write(
            name,
            [
                (
                    "m",
                    [
                        ('{i="%d"}' % s, (s * 31 + i * i) % 1000 - 300, start + i * 15)
                        for s in range(series)
                        for i in range(samples)
                    ],
                )
            ],
        )

    start = 1700006400
    values = ["1", "7", "0", "-3", "123456789", "9007199254740993", "-4611686018427387904"]
    write(
        "whole",
        [
            (
                f"m{s}",
                [
                    ('{job="a",i="%d"}' % s, values[(i * i + s) % 7] if i % 5 else i, start + i * 15)
                    for i in range(300)
                ],
            )
            for s in range(20)
        ],
    )
    # times that the one before has too, others between them, and a series more
    write(
        "over",
        [
            (
                f"m{s}",
                [
                    ('{job="a",i="%d"}' % s, -1 - i, "%d.%03d" % (start + 1500 + i * 10, s % 2))
                    for i in range(150)
                ],
            )
            for s in range(5, 22)
        ],
    )
    odd = [
        "1.5", "NaN", "+Inf", "-Inf", "-0", "5e-324", "9223372036854775808", "0.1", "123456789.123456789",
        "1e15", "-7", "0.000000001", "3", "4611686018427387904", "-0.3",
    ]
    rows = [
        ('{k="%02d",v="x\\"y\\\\z \u00e9"}' % k, v, "%d.%03d" % (start + i * 13, i * 8))
        for k, v in enumerate(odd)
        for i in range(3)
    ]
    write("odd", [("odd", rows)])
    write(
        "gaps",
        [
            (
                f"g{s}",
                [
                    ("", i % 11 - 5, "%d.%03d" % (start + i * 9 + (i // 50) * 3000, (i * 37) % 1000))
                    for i in range(400)
                ],
            )
            for s in range(3)
        ],
    )
    write(
        "fractions",
        [
            (
                "f",
                [
                    ('{i="%d"}' % s, "%.*f" % (s, random.uniform(-1000, 1000)), start + i * 15)
                    for s in range(11)
                    for i in range(200)
                ],
            )
        ],
    )
    # numbers that no double is, around what is kept and what is rounded
    far = [
        "0.5", "1.5", "2.5", "-0.5", "-2.5", "0." + "4" + "9" * 40, "0.5" + "0" * 40 + "1", "1e-400", "1e400",
        "-1e300", "7e-999", "123456789012345678901234567890e-25", "10000000000000000000e-19",
        "1" * 900 + "e-899", "0." + "0" * 500 + "25e501", "9223372036854775807", "9223372036854775807.4999",
        "9223372036854775807.5", "-9223372036854775807.5", "-9223372036854775808", "92233720368547758.075e2",
        "922337203685477580.755", "5e-1", ".5e0", "25E-1", "+35.e-1", "0e999", "0" * 40 + ".5",
        "0.0000000005", "0.0000000015", "-0.00000000050000001", "NaN", "-Inf", "-0", "-0.2",
    ]
    rows = [
        ('{k="%02d"}' % k, v, "%d.%03d" % (start + i * 13, i * 8))
        for k, v in enumerate(far)
        for i in range(2)
    ]
    write("far", [("far", rows)])
    many("thousand", 1000, 120)
    # doubles of any bits, and numbers between doubles
    anything = []
    for i in range(3000):
        x = struct.unpack(">d", random.getrandbits(64).to_bytes(8, "big"))[0]
        anything.append(repr(x) if x == x and abs(x) != float("inf") else "0.5")
    for k in range(3000):
        anything.append("%.*e" % (k % 40, random.uniform(-1, 1) * 10.0 ** random.randint(-320, 300)))
    anything += [f"{2**53 + i}" for i in range(-4, 5)] + [f"-{2**53 + i}" for i in range(-4, 5)]
    anything += ["1e5", "1e6", "999999", "1234567", "0.0001", "0.00001", "0.000123", "100000", "1e21", "1e22"]
    anything += ["9007199254740993", "2.2250738585072011e-308", "5e-324", "2e-324", "1.7976931348623157e308"]
    anything += ["NaN", "+Inf", "-Inf", "-0", "0", "1", "-1", "0.1", "1e23", "8.5", "4503599627370496.5"]
    rows = [('{k="%d"}' % (k % 97), v, start + k // 97) for k, v in enumerate(anything)]
    write("anything", [("anything", rows)])
    if large:
        many("many", 10000, 120)
        many("wide", 100000, 12)


def dump_of(tsdb):
    os.makedirs(tsdb + "/wal", exist_ok=True)
    return subprocess.run(
        ["promtool", "tsdb", "dump", tsdb], capture_output=True, text=True, check=True
    ).stdout


def rows_of(folders):
    got = {}
    for labels, samples in blocks(sorted(folders)).items():
        got.setdefault(tuple(sorted(labels)), []).extend(samples)
    return got


def counts_in(told):
    text = open(told).read()
    counts = {
        word: int(n) for n, word in re.findall(r"(\d+) (kept|stale|of other|deleted|hidden|outside)", text)
    }
    read = int(re.search(r"read (\d+) samples", text).group(1))
    assert sum(counts.values()) == read, (read, counts)
    return counts


def rounded_in(told):
    return int(re.search(r"(\d+) rounded", open(told).read()).group(1))


ESCAPES = {"\\\\": "\\", '\\"': '"', "\\n": "\n"}


def written(path, digits, rest):
    """The samples that a text writes in its lines, how many are at a time that a later line has too, how many
    are left, and how many are rounded."""
    out, hidden, left, rounded = {}, 0, 0, 0
    for line in open(path, encoding="utf-8").read().split("\n"):
        if line.startswith("#") or not line:
            continue
        name = re.match("[a-zA-Z_:][a-zA-Z0-9_:]*", line)[0]
        v, t = line.split(" ")[-2:]
        labels = [(a, re.sub(r"\\.", lambda m: ESCAPES[m[0]], b[1:-1])) for a, b in LAB.findall(line)]
        key = tuple(sorted([("__name__", name)] + [pair for pair in labels if pair[1]]))
        x = Decimal(v)
        if not x.is_finite():
            left += 1
            continue
        x = Fraction(x) * 10**digits
        # the nearest whole number, of two the even one
        n = round(x)
        if (n != x and rest != "round") or abs(n) >= 2**63:
            left += 1
            continue
        rounded += n != x
        at = int(Decimal(t).scaleb(3))
        hidden += at in out.setdefault(key, {})
        out[key][at] = n
    return {key: sorted(samples.items()) for key, samples in out.items()}, hidden, left, rounded


def compare_text(digits, rest, told, text, folders):
    want, hidden, left, rounded = written(text, digits, rest)
    got = rows_of(folders)
    assert want == got, [
        (k, want.get(k), got.get(k)) for k in set(want) | set(got) if want.get(k) != got.get(k)
    ][:2]
    counts = counts_in(told)
    assert (counts["hidden"], counts["of other"]) == (hidden, left), (counts, hidden, left)
    assert rounded_in(told) == rounded, (rounded_in(told), rounded)
    print(
        "the same:", counts["kept"], "samples of", len(got), "series as the text writes;", left, "left out,",
        rounded, "rounded",
    )


def reply(folders):
    rows = [
        {"labels": dict(labels), "samples": samples} for labels, samples in sorted(rows_of(folders).items())
    ]
    print(json.dumps({"parts": [], "rows": rows}, ensure_ascii=False, separators=(",", ":")))


def same(digits, tsdb, folders):
    want, left, _ = dump(dump_of(tsdb).splitlines(), digits, "drop")
    got = rows_of(folders)
    want = {key: sorted(samples) for key, samples in want.items()}
    assert not left and want == got, (
        left,
        [(k, want.get(k), got.get(k)) for k in set(want) | set(got) if want.get(k) != got.get(k)][:2],
    )
    print("the same:", sum(map(len, got.values())), "samples of", len(got), "series back in promtool")


def compare(digits, rest, told, tsdbs, folders):
    want, left, given, rounded = {}, 0, 0, 0
    for tsdb in tsdbs:
        rows, other, more = dump(dump_of(tsdb).splitlines(), digits, rest)
        left += other
        rounded += more
        for k, samples in rows.items():
            given += len(samples)
            want.setdefault(k, {}).update(samples)
    want = {k: sorted(samples.items()) for k, samples in want.items()}
    ranges = []
    got = {}
    for folder in sorted(folders):
        rows = block(folder)
        times = [t for samples in rows.values() for t, _ in samples]
        meta = json.load(open(folder + "/meta.json"))
        assert meta["minTime"] == min(times) and meta["maxTime"] == max(times) + 1, folder
        assert meta["stats"] == {"numSeries": len(rows), "numSamples": len(times)}, folder
        assert meta["decimals"] == digits, folder
        ranges.append((min(times), max(times)))
        for k, samples in rows.items():
            got.setdefault(tuple(sorted(k)), []).extend(samples)
    assert all(a[1] < b[0] for a, b in zip(ranges, ranges[1:])), ranges
    assert want.keys() == got.keys(), list(set(want) ^ set(got))[:3]
    for k in want:
        assert want[k] == got[k], (k, want[k][:3], got[k][:3])
    count = sum(map(len, got.values()))
    counts = counts_in(told)
    assert counts["kept"] == count and counts["hidden"] == given - count, (counts, count, given)
    assert counts["stale"] + counts["of other"] == left, (counts, left)
    assert rounded_in(told) == rounded, rounded
    print(
        "the same:", count, "samples of", len(got), "series in", len(folders), "blocks;", left, "left out,",
        rounded, "rounded",
    )


BITS = 2**64 - 1
READ_NAN, STALE = 0x7FF8000000000001, 0x7FF0000000000002


def bits_of(x):
    return int.from_bytes(struct.pack(">d", x), "big")


def restored(v):
    """The bits of the double for which a number is kept."""
    if v == 0 or 1 <= abs(v) <= 2**53:
        return bits_of(float(v)) if v else 0
    x = struct.unpack(">d", (v & BITS).to_bytes(8, "big"))[0]
    if x == x and 1 <= abs(x) <= 2**53 and x == int(x):
        return int(x) & BITS
    return v & BITS


def dumped(tsdb):
    """The texts of the values that promtool prints, by series and time."""
    out = {}
    for line in dump_of(tsdb).splitlines():
        i = line.rindex("} ")
        v, t = line[i + 2 :].split()
        key = tuple(sorted((a, ast.literal_eval(b)) for a, b in LAB.findall(line[1:i])))
        out.setdefault(key, {})[int(t)] = v
    return out


def doubles(told, tsdb, folders):
    want, got = dumped(tsdb), rows_of(folders)
    assert want.keys() == got.keys(), list(want.keys() ^ got.keys())[:3]
    kept = nans = 0
    for key, samples in got.items():
        assert [t for t, _ in samples] == sorted(want[key]), key
        for t, v in samples:
            bits, text = restored(v), want[key][t]
            if text == "NaN":
                assert bits in (READ_NAN, STALE), (key, t, hex(bits))
                nans += 1
            else:
                assert bits == bits_of(float(text)), (key, t, text, hex(bits))
            kept += 1
    for folder in folders:
        meta = json.load(open(folder + "/meta.json"))
        assert (meta["values"], meta["decimals"]) == ("doubles", 0), folder
    counts = counts_in(told)
    assert counts["kept"] == sum(counts.values()) == kept, (counts, kept)
    assert "; values as doubles" in open(told).read()
    print("the same:", kept, "samples of", len(got), "series bit for bit,", nans, "of them NaN")


def shown(tsdb, text):
    want, got = dumped(tsdb), {}
    for line in open(text, encoding="utf-8").read().split("\n"):
        if line.startswith("#") or not line:
            continue
        name = re.match("[a-zA-Z_:][a-zA-Z0-9_:]*", line)[0]
        v, t = line.split(" ")[-2:]
        labels = [(a, re.sub(r"\\.", lambda m: ESCAPES[m[0]], b[1:-1])) for a, b in LAB.findall(line)]
        got.setdefault(tuple(sorted([("__name__", name)] + labels)), {})[int(Decimal(t).scaleb(3))] = v
    for key in want.keys() | got.keys():
        assert want.get(key) == got.get(key), (key, want.get(key), got.get(key))
    print("the same:", sum(map(len, got.values())), "samples as promtool prints them")


def sums():
    """The checksum of each byte."""
    table = []
    for byte in range(256):
        for _ in range(8):
            byte = byte >> 1 ^ (0x82F63B78 if byte & 1 else 0)
        table.append(byte)
    return table


TABLE = sums()


def checksum(data):
    """CRC-32C, the most significant byte first."""
    state = 0xFFFFFFFF
    for byte in data:
        state = state >> 8 ^ TABLE[(state ^ byte) & 255]
    return (state ^ 0xFFFFFFFF).to_bytes(4, "big")


def uvarint(number):
    text = bytearray()
    while number > 127:
        text.append(number & 127 | 128)
        number >>= 7
    return bytes(text) + bytes([number])


def varint(number):
    return uvarint(2 * number if number >= 0 else -2 * number - 1)


def delete(folder):
    meta = json.load(open(folder + "/meta.json"))
    width = meta["maxTime"] - meta["minTime"]
    entries = b""
    for at, (reference, _) in enumerate(references(folder)):
        if at % 3 == 0:
            entries += (
                uvarint(reference)
                + varint(meta["minTime"] + width // 4)
                + varint(meta["minTime"] + width // 2)
            )
    body = b"\x01" + entries
    open(folder + "/tombstones", "wb").write(struct.pack(">I", 0x0130BA30) + body + checksum(entries))


def run(tool, source, out):
    shutil.rmtree(out, ignore_errors=True)
    end = subprocess.run(
        [tool, "from-prometheus", "--decimals", "9", "--rest", "drop", "--into", out, source],
        capture_output=True,
        timeout=60,
    )
    return end.returncode


def change_part(part):
    """Flips the bits of every so many bytes of each file in a copy of its own, and counts the exit
    statuses."""
    tool, source, work, wanted, first, step = part
    out, copy = f"{work}/changed-out-{first}", f"{work}/changed-{first}"
    shutil.copytree(source, copy)
    ends = Counter()
    for name in ["index", "chunks/000001", "tombstones"]:
        whole = open(f"{source}/{name}", "rb").read()
        for at in range(first, len(whole), step):
            for flip in (1 << bit for bit in range(8)):
                changed = bytearray(whole)
                changed[at] ^= flip
                open(f"{copy}/{name}", "wb").write(changed)
                code = run(tool, copy, out)
                ends[code] += 1
                assert code in (0, 1, 3), (name, at, flip, code)
                if code == 0:
                    assert blocks(glob.glob(out + "/0*")) == wanted, (name, at, flip)
        open(f"{copy}/{name}", "wb").write(whole)
    assert run(tool, copy, out) == 0, "the copy is not what it was"
    return ends


def change(tool, tsdb, work):
    source = glob.glob(tsdb + "/0*")[0]
    out = work + "/changed-out"
    assert run(tool, source, out) == 0
    wanted = blocks(glob.glob(out + "/0*"))
    step = os.cpu_count()
    with multiprocessing.Pool(step) as pool:
        ends = sum(
            pool.map(change_part, [(tool, source, work, wanted, first, step) for first in range(step)]),
            Counter(),
        )
    print(ends.total(), "flipped bits by exit status:", dict(ends))


if __name__ == "__main__":
    if sys.argv[1] == "texts":
        texts(sys.argv[2], len(sys.argv) > 3)
    elif sys.argv[1] == "compare":
        cut = sys.argv.index("--")
        compare(int(sys.argv[2]), sys.argv[3], sys.argv[4], sys.argv[5:cut], sys.argv[cut + 1 :])
    elif sys.argv[1] == "text":
        compare_text(int(sys.argv[2]), sys.argv[3], sys.argv[4], sys.argv[5], sys.argv[7:])
    elif sys.argv[1] == "reply":
        reply(sys.argv[2:])
    elif sys.argv[1] == "same":
        same(int(sys.argv[2]), sys.argv[3], sys.argv[5:])
    elif sys.argv[1] == "doubles":
        doubles(sys.argv[2], sys.argv[3], sys.argv[5:])
    elif sys.argv[1] == "shown":
        shown(sys.argv[2], sys.argv[3])
    elif sys.argv[1] == "delete":
        delete(sys.argv[2])
    else:
        change(*sys.argv[2:5])
