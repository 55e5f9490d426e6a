#!/usr/bin/env python3
"""Makes data/cases and stdout: what the leaf functions are asked, and what they must answer by document 01.

  make.py            writes both files
  make.py --check    writes nothing; exits 1 if the files there differ

A case is one line: a letter, then its fields, each after one tab. The last field may hold any bytes but a line feed.
  n LEAST GREATEST TEXT                      read_number of TEXT
  w LENGTH AT NUMBER                         write_number into LENGTH (0..64) bytes that all hold '.', at AT
  s LENGTH AT TEXT                           write_bytes, likewise
  t TEXT                                     Timecode::read
  f FRAME                                    Timecode::of_frame
  g LENGTH AT FRAME                          Timecode.write, as w
  h MORE TEXT                                Heartbeat::read of TEXT and the MORE (0..2) bytes after it in the file:
                                             nothing, its line feed, or that and a byte of the next line
  b LENGTH AT BS PRIORITY TIEBREAKER REVEAL  Heartbeat.write, as w
  l MORE TEXT                                Line::read, as h
  r P I Q J                                  Rank { P, I }.higher(Rank { Q, J })
  c TEXT                                     field_count
  e A B                                      same
  k                                          the number of each refusal, in the order of document 01
An answer is one line: the refusal's number, or 0 and the values, each after a tab (yes is 1, no is 0; of Reveal, whether
it is set). A writer's answer goes on with a tab and the whole slice as it is afterwards, the line feed of a heartbeat
too. A case that makes no sense is answered `case?`: there is none here.
"""
import random
import re
import sys
from pathlib import Path

U8, U16, U32, U64 = 2**8 - 1, 2**16 - 1, 2**32 - 1, 2**64 - 1
DAY = 24 * 60 * 60 * 25


# ---- the rules

def good(*values):
    return b"\t".join(b"%d" % v for v in (0,) + values)


def refused(number, *slices):
    return b"\t".join((b"%d" % number,) + slices)


def is_number(text, least, greatest):
    return re.fullmatch(rb"0|[1-9][0-9]*", text) is not None and least <= int(text) <= greatest


def read_number(least, greatest, text):
    return good(int(text)) if is_number(text, least, greatest) else refused(2)


def write_bytes(length, at, text):
    end = at + len(text)
    if end > length:
        return refused(9, b"." * length)
    return good(end) + b"\t" + b"." * at + text + b"." * (length - end)


def write_number(length, at, number):
    return write_bytes(length, at, b"%d" % number)


def read_timecode(text):
    if re.fullmatch(rb"[0-9]{2}(:[0-9]{2}){3}", text) is None:
        return refused(3)
    h, m, s, f = (int(part) for part in text.split(b":"))
    return good(((h * 60 + m) * 60 + s) * 25 + f) if h < 24 and m < 60 and s < 60 and f < 25 else refused(3)


def of_frame(frame):
    return good(frame) if frame < DAY else refused(3)


def label(frame):
    s, f = divmod(frame, 25)
    return b"%02d:%02d:%02d:%02d" % (s // 3600, s // 60 % 60, s % 60, f)


def write_timecode(length, at, frame):
    return write_bytes(length, at, label(frame)) if frame < DAY else refused(3, b"." * length)


def read_line(more, text):
    return good(len(text)) if more == 1 and len(text) <= 64 else refused(1)


def read_heartbeat(more, text):
    fields = text.split(b"\t")
    if more != 1 or len(text) > 64 or len(fields) != 4:
        return refused(1)
    if not all(is_number(field, *span) for field, span in zip(fields, ((0, U16), (0, U8), (1, U16), (0, U8)))):
        return refused(2)
    bs, priority, tiebreaker, reveal = (int(field) for field in fields)
    return good(bs, priority, tiebreaker, reveal != 0)


def write_heartbeat(length, at, bs, priority, tiebreaker, reveal):
    line = b"%d\t%d\t%d\t%d\n" % (bs, priority, tiebreaker, reveal != 0)
    return write_bytes(length, at, line) if tiebreaker > 0 else refused(2, b"." * length)


def higher(p, i, q, j):
    return good(p > q or (p == q and i > j))


RULES = {
    "n": read_number, "w": write_number, "s": write_bytes, "t": read_timecode, "f": of_frame, "g": write_timecode,
    "h": read_heartbeat, "b": write_heartbeat, "l": read_line, "r": higher,
    "c": lambda text: good(text.count(b"\t") + 1),
    "e": lambda a, b: good(a == b),
    "k": lambda: good(1, 2, 3, 4, 5, 6, 7, 8, 9, 11, 12, 13, 14, 15, 16),
}


# ---- the cases: in texts that are split, a bar parts them

EDGES = [0, 1, 9, 10, 99, U8, U8 + 1, U16, U16 + 1, U32, U32 + 1, U64]
POWERS = sorted({10**k + d for k in range(20) for d in (-1, 0, 1)})
SPANS = [(1, U16), (0, U8), (2, 250), (0, 0), (1, 1), (U64, U64), (U64 - 1, U64), (5, 4), (U64, 0), (U32, U32 + 1)]
GREAT = [U64 + 1, U64 + 2, U64 + 10, 10**20, 10**20 - 1, 10**100, 10**100 - 1, 2**65, 2**128, 2**64 * 7 + 5]
BAD_NUMBERS = (b"|00|000|01|+1|-0|-1| 1|1 |1a|a1|0x1|1.0|1,000|1e3|1_0|/|:|1/|1:|/1|:1|\r|1\r|\r1|\0|1\0|\x001|0\0|\xff|1\xff|\xff1|\xb1|"
               b"\t|1\t|\t1|1\t2").split(b"|") + "٣ １ ²".encode().split() + [b"0" * 200, b"0" * 199 + b"1", b"0%d" % U64]
WORDS = b"|a|prospect|\t\t|a\tb|\0\xff\r|refused-16".split(b"|") + [b"x" * 63, b"y" * 64, b"z" * 65]
TIMES = (b"00:00:00:00|00:00:00:24|00:00:01:00|00:01:00:00|01:00:00:00|12:34:56:07|19:09:08:09|09:59:59:24|23:59:59:24|23:59:59:25|"
         b"23:59:59:99|24:00:00:00|99:99:99:99|00:60:00:00|00:00:60:00|00:00:00:25|23:60:59:24|23:59:60:24||0|00:00:00|00:00:00:|"
         b"00:00:00:0|00:00:00:1|0:00:00:00|00:00:00:000|000:00:00:00|00:00:00:00:|00:00:00:00 | 00:00:00:00|00:00:00:00:00|"
         b"00.00.00.00|00-00-00-00|00 00 00 00|00\t00\t00\t00|00000000000|ab:cd:ef:gh|:::::::::::|00:00:00:0\r|00:00:00:00\r|"
         b"\x000:00:00:00|00:00:00:0\xff|+1:00:00:00|-0:00:00:00").split(b"|") + ["0٣:00:00:0".encode()]
TIMES += [b"12:34:56:07"[:k] + byte + b"12:34:56:07"[k + 1:] for k in range(11) for byte in (b"/", b":", b";", b"0", b"a")]
FRAMES = [0, 1, 24, 25, 26, 1499, 1500, 1501, 89999, 90000, 90001, 899999, 1080000, DAY - 25, DAY - 1, DAY, DAY + 1, 2**31, U32]
BEATS = (b"0\t20\t2\t7|0\t20\t2\t1|0\t20\t2\t0|0\t0\t1\t0|65535\t255\t65535\t255|1\t10\t1\t2|65535\t0\t1\t1|65536\t20\t2\t0|"
         b"0\t255\t2\t0|0\t256\t2\t0|0\t20\t0\t0|0\t20\t65535\t0|0\t20\t65536\t0|0\t20\t2\t255|0\t20\t2\t256|0\t20\t2|0\t20\t2\t0\t0|"
         b"0\t20\t2\t0\t|\t0\t20\t2\t0|0\t20\t2\t|\t20\t2\t0|0\t\t2\t0|0\t20\t\t0|0\t\t20\t2\t0|0 20 2 0|0 20\t2\t0|\t\t\t|\t\t|\t||0|"
         b"00\t20\t2\t0|0\t020\t2\t0|0\t20\t02\t0|0\t20\t2\t00|0\t20\t2\t01|+0\t20\t2\t0|0\t-1\t2\t0|0\t20\t2\t0\r| 0\t20\t2\t0|"
         b"0\t20\t2\t0 |a\tb\tc\td|0\t20\t2\t\0|0\t20\t2\t\xff|0\t20\t2\t/|0\t20\t2\t:|0\t20\t18446744073709551618\t0").split(b"|")
BEATS += [text for n in (58, 59) for text in (b"1" * n + b"\t1\t2\t0", b"0\t1\t2\t" + b"0" * n, b"x" * (n + 6))]
HEARTBEATS = [(0, 20, 2, 7), (0, 20, 2, 0), (0, 0, 1, 1), (U16, U8, U16, U8), (9, 99, 999, 2), (10, 100, 10000, 1), (0, 20, 0, 0)]
LINES = b"|a|\r|\t|end\t00:00:00:08".split(b"|") + [b"x" * 63, b"x" * 64, b"x" * 65, b"x" * 200, b"\xff" * 64, b"\0" * 65]
RANKS = [(0, 1), (0, 2), (10, 1), (10, 2), (10, U16), (20, 1), (U8, 0), (U8, U16)]
TEXTS = b"|a|\t|\t\t|a\tb|a\tb\t|\ta|a\t\tb|0\t20\t2\t7|a b|\x08|\x0b\0\xff\r".split(b"|") + [b"\t" * 40]
PAIRS = b"=|=a|a=|a=a|a=b|ab=a|a=ab|ab=ba|start=start|start=Start|ready=unready|a=a\t|\0=|\0=\0|\xff=\x7f|\r=\r".split(b"|")
PAIRS += [b"x" * 99 + b"y=" + text for text in (b"x" * 99 + b"y", b"x" * 100, b"y" + b"x" * 98 + b"y")]


def places(size):
    """Slices and places for a text of that size: just long enough, too short by one byte, at the end, beyond it."""
    pairs = [(size, 0), (size + 3, 2), (size + 2, 2), (size + 1, 2), (size - 1, 0), (size, size), (size, size + 1), (0, 0),
             (0, 1), (64, 0), (64, 64 - size), (64, 65 - size), (64, U64), (64, U64 - size + 1)]
    return [(length, at) for length, at in pairs if 0 <= length <= 64 and 0 <= at <= U64]


def fixed():
    yield ("k",)
    for v in EDGES:
        yield from (("n",) + span + (b"%d" % max(v + d, 0),) for span in ((0, U64), (v, v)) for d in (-1, 0, 1))
    for span in SPANS:
        yield from (("n",) + span + (b"%d" % max(edge + d, 0),) for edge in span for d in (-1, 0, 1))
    yield from (("n", 0, U64, text) for text in BAD_NUMBERS + [b"%d" % v for v in GREAT])
    for v in POWERS:
        yield "n", 0, U64, b"%d" % v
        yield "w", len(str(v)) + 2, 1, v
    yield from (("w",) + place + (v,) for v in (0, 10, U64) for place in places(len(str(v))))
    yield from (("s",) + place + (word,) for word in WORDS for place in places(len(word)))
    yield from (("t", text) for text in TIMES)
    yield from (("f", frame) for frame in FRAMES)
    yield from (("g",) + place + (frame,) for frame in FRAMES for place in ((11, 0), (13, 1), (10, 0)))
    yield from (("g",) + place + (frame,) for frame in (0, DAY - 1, DAY) for place in places(11))
    yield from (("h", 1, text) for text in BEATS)
    yield from (("h", more, text) for more in (0, 2) for text in BEATS[:5] + BEATS[-6:])
    yield from (("b",) + place + beat for beat in HEARTBEATS for place in places(len(b"%d\t%d\t%d\t0\n" % beat[:3])))
    yield from (("l", more, text) for more in (1, 0, 2) for text in LINES)
    yield from (("r",) + a + b for a in RANKS for b in RANKS)
    yield from (("c", text) for text in TEXTS)
    yield from (("e",) + tuple(pair.split(b"=")) for pair in PAIRS)


def drawn():
    """Good cases with one byte replaced, put in, taken out or doubled, or their rest cut off; and writers anywhere."""
    rng = random.Random(1)

    def pick(n):
        return int(rng.random() * n)

    def mutated(text):
        i, j = pick(len(text) + 1), pick(22)
        byte = b"0123456789/:;\t\t -+a\r\0\xff"[j:j + 1]
        return text[:i] + (byte + text[i + 1:], byte + text[i:], text[i + 1:], text[i:i + 1] + text[i:], b"")[pick(5)]

    for _ in range(30):
        yield "h", 1, mutated(b"%d\t%d\t%d\t%d" % (pick(U16 + 1), pick(U8 + 1), 1 + pick(U16), pick(3)))
        yield "t", mutated(label(pick(DAY)))
        yield "n", 0, 10**pick(20), mutated(b"%d" % pick(10**pick(20)))
        yield "g", 11 + pick(3), pick(4), pick(DAY)
        yield "w", pick(24), pick(6), pick(10**pick(20))
        yield "b", 10 + pick(12), pick(3), pick(U16 + 1), pick(U8 + 1), pick(9) * pick(7000), pick(3)
        yield "r", pick(3), pick(3), pick(3), pick(3)


def field(v):
    return v if isinstance(v, bytes) else str(v).encode()


cases = list(dict.fromkeys((*fixed(), *drawn())))
asked = b"".join(b"\t".join(map(field, case)) + b"\n" for case in cases)
answered = b"".join(RULES[case[0]](*case[1:]) + b"\n" for case in cases)
for name, made in (("data/cases", asked), ("stdout", answered)):
    path = Path(__file__).resolve().parent / name
    if sys.argv[1:] != ["--check"]:
        path.write_bytes(made)
    elif not path.exists() or path.read_bytes() != made:
        sys.exit(f"{path} is not what make.py makes")
