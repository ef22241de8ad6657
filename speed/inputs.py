#!/usr/bin/env python3
"""Seeded inputs for the rows of the benchmark (docs/SPEED.md): for timing, mostly legal, one content a name; for comparing, legal
and damaged material mixed; and a recording for the listing. An input of a row has at most 65,536 octets.
"""
import random

LIMIT = 65536
SYNTAXES = ["acelp", "pcm", "g727", "g728", "g7231", "data", "fax"]
MOST_M = {"acelp": 6, "pcm": 12, "g727": 12, "g728": 12}
SEQS = {"acelp": (0, 1), "g728": (0, 1), "g7231": (0, 1), "pcm": (1,), "g727": (1,), "data": (0,), "fax": (0,)}
PCM = [40, 35, 30, 40, 35, 30, 25, 20, 15, 10, 25, 20, 15, 10]
G727 = [10, 5, 10, 15, 15, 20, 25, 15, 5, 10, 20, 25, 20, 5, 25]
PAGE = {2: 12, 3: 24, 4: 36, 5: 48, 6: 60, 7: 72, 8: 36, 9: 48, 10: 60, 11: 72}  # octets of T.4 data, by modulation


# ---- the protocol's form ----

def text_of(records):
    """A provisioning text; records: {cid: (syntax, m, seq)}."""
    return "".join(f"cid={c}\nsyntax={s}\nm={m}\nseq={q}\n" for c, (s, m, q) in sorted(records.items())).encode()


ENTRY = {"d": 4, "s": 11}


def entries(row, items):
    """The senders' rows take an entry an item."""
    size = ENTRY.get(row)
    if size is None:
        return items
    return [item[at:at + size] for item in items for at in range(0, len(item) - size + 1, size)]


def joined(row, works, text, items):
    """The whole input, works None for each item once; items that do not fit any more are left out."""
    out = b""
    count = 0
    for item in entries(row, items):
        if 7 + len(text) + len(out) + 2 + len(item) > LIMIT:
            break
        out += len(item).to_bytes(2, "little") + item
        count += 1
    return row.encode() + (count if works is None else works).to_bytes(4, "little") + len(text).to_bytes(2, "little") + text + out


# ---- frames and payloads ----

def sub(cid, ptype, payload, last, extended=False):
    """A sub-frame; `extended` sets EI where it is not needed."""
    ei = extended or cid > 63 or ptype != 0
    head = bytes([(128 if ei else 0) | (0 if last else 64) | cid & 63])
    if ei:
        head += bytes([cid & 192 | ptype])
    return head + (b"" if last else bytes([len(payload)])) + payload


def frame_of(subs):
    """A frame of (cid, type, payload), the last without LI."""
    return b"".join(sub(c, t, p, i == len(subs) - 1) for i, (c, t, p) in enumerate(subs))


def octets(rng, count):
    return bytes(rng.randrange(256) for _ in range(count))


def voice(rng, record):
    syntax, m, seq = record
    coding = rng.randrange(14) if syntax == "pcm" else rng.randrange(15) if syntax == "g727" else 0
    front = bytes([rng.randrange(16) << 4 | coding]) if seq else b""
    if syntax == "g7231":
        rate = rng.randrange(2)
        return front + bytes([rng.randrange(64) << 2 | rate]) + octets(rng, 19 if rate else 23)
    each = PCM[coding] if syntax == "pcm" else G727[coding] if syntax == "g727" else 10
    return front + octets(rng, each * m)


def window(rng):
    on = rng.randrange(2)
    return bytes([on << 5 | rng.randrange(20), rng.randrange(16) if on else rng.randrange(32)])


def digits(rng):
    return bytes([rng.randrange(256), rng.randrange(32)]) + window(rng) + window(rng) + window(rng)


def fax(rng, command=None):
    command = rng.randrange(5) if command is None else command
    stamped = command < 2 or rng.random() < 0.5
    out = bytes([stamped << 7 | rng.randrange(16) << 3 | command])
    if stamped:
        out += bytes([rng.randrange(256), rng.randrange(128)])
    if command == 1:
        modulation = rng.randrange(12)
        out += bytes([rng.randrange(2) << 7 | modulation]) + (octets(rng, 2) if modulation == 0 else b"\0\0")
    elif command == 2:
        out += octets(rng, rng.choice([3, 12, 24, 36, 48, 60, 72]))
    elif command > 2:
        out += octets(rng, 3)
    return out


def payload(rng, record, ptype):
    """A sound payload, or of an unallowed type any octets."""
    syntax = record[0] if record else None
    if record is None or ptype > 4 or syntax == "data" and ptype:
        return octets(rng, rng.randrange(20))
    if ptype == 0:
        if syntax == "data":
            return bytes([rng.randrange(8) << 5 & 0xdf | rng.randrange(32)]) + octets(rng, 1 + rng.randrange(1, 60))
        return fax(rng) if syntax == "fax" else voice(rng, record)
    if ptype == 3:
        return fax(rng)
    if ptype == 4:
        return octets(rng, 2) if syntax in ("pcm", "g727") else b""
    return digits(rng) if ptype == 1 else octets(rng, 16)


# ---- senders' runs, for the receivers ----

def dialled(entries):
    """Digit entries as (on, code, edge, level): tones and pauses of 60 ms, then off to the end."""
    run = []
    code = 0
    while len(run) + 6 <= entries:
        run += [(1, code, 7, -8), (1, code, 0, -8), (1, code, 0, -8), (0, 0, 12, 0), (0, 0, 0, 0), (0, 0, 0, 0)]
        code = (code + 5) % 16
    return run + [(0, 0, 0, 0)] * (entries - len(run))


def digit_payloads(entries):
    """What the digit sender sends of sound entries."""
    sent, windows, before, tail = [], [(0, 0, 0)] * 3, (0, 0), 0
    for on, code, edge, level in entries:
        state = (on, code if on else 0)
        active = on or state != before
        before = state
        if not active and tail == 0:
            continue
        tail = 3 if active else tail - 1
        windows = [(on, edge, state[1])] + windows[:2]
        out = [len(sent) % 256, -level]
        for w in windows:
            out += [w[0] << 5 | w[1], w[2]]
        sent.append(bytes(out))
    return sent


def sampled(entries, every):
    """Signalling entries as (alarm, ten samples): another sample at each `every`th entry, else quiet."""
    value, run = 0, []
    for i in range(entries):
        if i % every == every - 1:
            run.append((i // every % 2, [value] * 4 + [(value + 5) % 16] * 6))
            value = (value + 5) % 16
        else:
            run.append((0, [value] * 10))
    return run


def signalling_payloads(entries):
    """What the signalling sender sends of sound entries, started at 0."""
    sent, count, windows, quiet, last = [], 0, [[0] * 10] * 3, 0, b""
    for alarm, samples in entries:
        quiet = quiet + 1 if all(s == windows[2][9] for s in samples) else 0
        if quiet > 25:
            if (quiet - 25) % 250 == 0:
                last = bytes([alarm << 7 | last[0] & 127]) + last[1:]
                sent.append(last)
            continue
        windows = windows[1:] + [samples]
        flat = sum(windows, [])
        last = bytes([alarm << 7 | count % 128] + [flat[2 * i] | flat[2 * i + 1] << 4 for i in range(15)])
        count += 1
        sent.append(last)
    return sent


def relay(number, command, body=b"", stamp=None):
    """A fax payload."""
    front = b"" if stamp is None else stamp.to_bytes(2, "little")
    return bytes([(stamp is not None) << 7 | number % 16 << 3 | command]) + front + body


def hdlc_call(modulation, frames, stamp):
    """What a fax sender sends of frames (octets, closing command): a payload an octet, each command three times."""
    number, window = 0, b"\xff\xff\xff"
    sent = [relay(0, 1, bytes([128 | modulation, 0, 0]), stamp)] * 3
    for content, closing in frames:
        for octet in content:
            number += 1
            window = bytes([octet]) + window[:2]
            sent.append(relay(number, 2, window))
        number += 1
        sent += [relay(number, closing, window)] * 3
    return sent + [relay(number + 1, 0, stamp=stamp + 500)] * 3


def page_call(modulation, parts, stamp):
    """What it sends of a page's parts, without HDLC."""
    sent = [relay(0, 1, bytes([modulation, 0, 0]), stamp)] * 3
    sent += [relay(i + 1, 2, part) for i, part in enumerate(parts)]
    return sent + [relay(len(parts) + 1, 0, stamp=stamp + 500)] * 3


def one_in_twenty_lost(payloads):
    return [p for i, p in enumerate(payloads) if i % 20 != 13]


def fax_data_lost(payloads):
    """Of the data payloads 1 in 20 lost, and the next one too each third time; no command."""
    data, out = 0, []
    for p in payloads:
        if p[0] % 8 == 2:
            data += 1
        if p[0] % 8 != 2 or data % 20 != 13 and data % 60 != 14:
            out.append(p)
    return out


# ---- timing ----

BENCH = {4: ("acelp", 2, 0), 5: ("acelp", 2, 1), 6: ("pcm", 2, 1), 7: ("g7231", 1, 1), 8: ("data", 1, 0), 9: ("fax", 1, 0),
         70: ("pcm", 4, 1), 200: ("g727", 4, 1)}


def timing_c(count):
    """A frame of `count` sub-frames of 22 payload octets, every third header with octet 1a."""
    rng = random.Random(1)
    parts = [sub(4 + i % 60, 0, octets(rng, 22), i == count - 1, i % 3 == 2) for i in range(count)]
    return "c", b"", [b"".join(parts)]


def timing_r():
    """A frame with a sub-frame of each kind."""
    rng = random.Random(2)
    pcm = bytes([0x37]) + octets(rng, 80)
    page = bytes([0x2a]) + octets(rng, 36)
    return "r", text_of(BENCH), [frame_of([
        (5, 0, voice(rng, BENCH[5])), (70, 0, pcm), (5, 1, digits(rng)), (5, 2, octets(rng, 16)), (5, 3, page),
        (70, 4, octets(rng, 2)), (8, 0, bytes([0xc1, 0x2c]) + octets(rng, 40)), (7, 0, bytes([0x50, 0x00]) + octets(rng, 23))])]


def material(rng):
    """Material that is taken whole with room 1,600; the speech, page and data octets share m[64 ..]."""
    m = bytearray(325)
    m[0:2] = (1600).to_bytes(2, "little")
    m[2:6] = bytes([5, rng.randrange(16), 0, 20])
    m[6:9] = bytes([5, rng.randrange(256), rng.randrange(32)])
    for at in (9, 12, 15):
        m[at:at + 3] = bytes([rng.randrange(2), rng.randrange(20), rng.randrange(16)])
    m[18:21] = bytes([5, rng.randrange(2), rng.randrange(128)])
    m[21:51] = bytes(rng.randrange(16) for _ in range(30))
    m[51:54] = bytes([5, rng.randrange(16), rng.randrange(2)])
    m[54:62] = bytes([rng.randrange(256), rng.randrange(128), 2, 0, 0, 0, 0, 36])
    m[62:64] = bytes([70, rng.randrange(2, 64)])
    m[64:320] = octets(rng, 256)
    m[320:325] = bytes([8, rng.randrange(4), rng.randrange(256), rng.randrange(32), 40])
    return m


def timing_w():
    return "w", text_of(BENCH), [bytes(material(random.Random(3)))]


def timing_d():
    """256 entries: digits dialled."""
    return "d", b"", [b"".join(bytes([on, code, edge, -level]) for on, code, edge, level in dialled(256))]


def timing_e():
    """256 payloads of such a run, so that the count goes round from turn to turn; 1 in 20 lost."""
    return "e", b"", one_in_twenty_lost(digit_payloads(dialled(300))[:256])


def timing_s():
    """256 entries: a change of sample every 40th, else quiet."""
    return "s", b"", [b"".join(bytes([alarm] + samples) for alarm, samples in sampled(256, 40))]


def timing_t():
    """256 payloads of such a run, so that the count goes round from turn to turn; 1 in 20 lost."""
    return "t", b"", one_in_twenty_lost(signalling_payloads(sampled(800, 40))[:256])


def timing_x():
    """Ten fax calls of three V.21 frames and a page, the ten modulations in turn; data payloads lost, at most two in a row."""
    rng = random.Random(5)
    run = []
    for i, (modulation, size) in enumerate(PAGE.items()):
        frames = [(octets(rng, 90), 3), (octets(rng, 23), 3), (octets(rng, 34), 4 if i % 5 == 4 else 3)]
        run += hdlc_call(1, frames, 3000 * i) + page_call(modulation, [octets(rng, size) for _ in range(3)], 3000 * i + 1000)
    return "x", b"", fax_data_lost(run)


def timing_h():
    """A frame of 8 sub-frames whose 6th is acelp voice on CID 5."""
    rng = random.Random(4)
    return "h", text_of(BENCH), [frame_of([
        (70, 0, bytes([0x37]) + octets(rng, 80)), (5, 1, digits(rng)), (5, 2, octets(rng, 16)), (7, 0, bytes([0, 0]) + octets(rng, 23)),
        (8, 0, bytes([0xc1, 0x2c]) + octets(rng, 40)), (5, 0, voice(rng, BENCH[5])), (6, 0, voice(rng, BENCH[6])),
        (4, 0, octets(rng, 20))])]


def timing_p():
    """The longest legal text: all CIDs, blocks as long as they come."""
    longest = [("acelp", 6, 0), ("g7231", 1, 1), ("g727", 12, 1), ("g728", 12, 0)]
    return "p", b"", [text_of({cid: longest[cid % 4] for cid in range(4, 256)})]


TIMING = {"c1": lambda: timing_c(1), "c8": lambda: timing_c(8), "c64": lambda: timing_c(64), "r": timing_r, "w": timing_w,
          "d": timing_d, "e": timing_e, "s": timing_s, "t": timing_t, "x": timing_x, "h": timing_h, "p": timing_p}


def timing(name, turns):
    """The bytes of a timing input."""
    row, text, items = TIMING[name]()
    return joined(row, turns, text, items)


# ---- comparing ----

def records(rng):
    """A random table; CID 5 often there."""
    out = {}
    for cid in rng.sample(range(4, 256), rng.choice([0, 1, 8, 20, 60])) + [5] * (rng.random() < 0.8):
        syntax = rng.choice(SYNTAXES)
        out[cid] = (syntax, rng.randint(1, MOST_M.get(syntax, 1)), rng.choice(SEQS[syntax]))
    return out


def damaged(rng, item):
    """Some octets changed, cut or added."""
    item = bytearray(item)
    for _ in range(rng.choice([1, 1, 1, 2, 4])):
        at = rng.randrange(len(item) + 1)
        what = rng.randrange(5)
        if what == 0 and item:
            item = item[:at] if rng.random() < 0.5 else item[at:]
        elif what == 1:
            item[at:at] = octets(rng, rng.randint(1, 3))
        elif what == 2 and at < len(item):
            del item[at]
        elif at < len(item):
            item[at] = item[at] ^ 1 << rng.randrange(8) if what == 3 else rng.randrange(256)
    return bytes(item)


def any_frame(rng, table):
    """A frame: sound, with damaged payloads, damaged itself, at a bound, or any octets."""
    kind = rng.randrange(12)
    if kind == 0:
        return octets(rng, rng.choice([0, 1, 2, 3, 5, 9, 30]))
    if kind == 1:
        count = rng.choice([63, 64, 65, 66])
        return frame_of([(5, 0, octets(rng, rng.randrange(3)))] * count)
    if kind == 2:
        return sub(rng.randrange(256), 0, octets(rng, rng.choice([1598, 1599, 1600, 1700])), True)
    known = list(table) or [5]
    subs = []
    for _ in range(rng.choice([1, 2, 4, 8])):
        cid = rng.choice(known) if rng.random() < 0.9 else rng.randrange(256)
        ptype = rng.choice([0, 0, 0, 1, 2, 3, 4]) if rng.random() < 0.95 else rng.randrange(16)
        content = payload(rng, table.get(cid), ptype)
        if rng.random() < 0.4:
            content = damaged(rng, content)
        subs.append((cid, ptype, content[:255]))
    whole = frame_of(subs)
    return damaged(rng, whole) if kind < 5 else whole


def compare_frames(rng, row):
    table = records(rng)
    text = text_of(table)
    if rng.random() < 0.05:
        text = damaged(rng, text)
    return text, [any_frame(rng, table) for _ in range(rng.randint(1, 60))]


def compare_material(rng, row):
    """Material with some fields at or beyond their bounds."""
    table = dict(BENCH)
    items = []
    for cid in rng.sample(range(4, 256), 12):
        syntax = rng.choice(SYNTAXES)
        table[cid] = (syntax, rng.randint(1, MOST_M.get(syntax, 1)), rng.choice(SEQS[syntax]))
    for _ in range(40):
        m = material(rng)
        if rng.random() < 0.7:
            cid = rng.choice([c for c in table if table[c][0] not in ("data", "fax")])
            speech = voice(rng, table[cid])
            front = table[cid][2]
            m[2:6] = bytes([cid, speech[0] >> 4 if front else 0, speech[0] & 15 if front else 0, min(255, len(speech) - front)])
            m[64:64 + m[5]] = speech[front:front + m[5]]
        if rng.random() < 0.5:
            m[56] = rng.randrange(256)
            m[53] = rng.choice([0, 1, 1])
            m[58] = rng.choice([0, 0, 1, 11, 12, 16])
            m[61] = rng.choice([0, 0, 3, 3, 12, 36, 72, 84, 255])
        if rng.random() < 0.3:
            m[62:64] = bytes([rng.choice(list(table)), rng.choice([1, 1, 0, 2, 63, 64, 127, 128])])
        for _ in range(rng.choice([0, 0, 1, 1, 2])):
            at = rng.choice(list(range(64)) + list(range(320, 325)) + [2, 6, 18, 51, 62, 320] * 3)
            m[at] = rng.choice([0, 1, 3, 4, 15, 16, 19, 20, 31, 32, 127, 128, 255, rng.randrange(256), rng.choice(list(table))])
        if rng.random() < 0.4:
            m[0:2] = rng.choice([0, 1, 20, 21, 50, 99, 100, rng.randrange(300), 1599, 1600, 65535]).to_bytes(2, "little")
        items.append(bytes(m) if rng.random() < 0.97 else damaged(rng, m))
    return text_of(table), items


def compare_digit_entries(rng, row):
    items = []
    for _ in range(rng.randint(1, 5)):
        out, on, code = b"", 0, 0
        for _ in range(rng.randint(0, 150)):
            before = (on, code)
            if rng.random() < 0.3:
                on = rng.randrange(2)
            if on and rng.random() < 0.2:
                code = rng.randrange(16)
            changed = before != (on, code)
            edge = rng.randrange(20) if changed else 0
            entry = [on + 2 * rng.randrange(100), code, edge, rng.choice([0, 3, 31, 8, 200])]
            if rng.random() < 0.1:
                entry[rng.randrange(1, 4)] = rng.choice([15, 16, 19, 20, 31, 128, 224, 225, 255])
            out += bytes(entry)
        items.append(out + octets(rng, rng.randrange(4)))
    return b"", items


def compare_payloads(rng, sent):
    """A run's payloads: lost, also as many as the receivers' bounds, doubled, late, damaged."""
    items, at = [], 0
    while at < len(sent) and len(items) < 600:
        item = sent[at]
        items.append(damaged(rng, item) if rng.random() < 0.1 else octets(rng, len(item)) if rng.random() < 0.03 else item)
        at += rng.choice([0, 1, 1, 1, 1, 1, 2, 3, 4, 5, rng.randrange(300)]) if rng.random() < 0.4 else 1
        if rng.random() < 0.02:
            at += rng.choice([62, 63, 64, 65, 126, 127, 128, 129])
        if rng.random() < 0.04:
            at = max(0, at - rng.choice([rng.randrange(6), rng.randrange(62, 68), rng.randrange(126, 132)]))
    return items


def compare_digit_payloads(rng, row):
    run = []
    while len(run) < 900:
        on = rng.randrange(2)
        run += [(on, rng.randrange(16), 0, -rng.randrange(32))] * rng.randint(1, 6)
    return b"", compare_payloads(rng, digit_payloads(run))


def compare_signalling_entries(rng, row):
    items, value = [], 0
    for _ in range(rng.randint(1, 5)):
        out = b""
        for _ in range(rng.choice([0, 10, 40, 300, 900])):
            samples = [value] * 10
            if rng.random() < 0.01:
                samples = [value] * rng.randrange(10)
                samples += [rng.randrange(16) for _ in range(10 - len(samples))]
                value = samples[9]
            if rng.random() < 0.01:
                samples[rng.randrange(10)] = rng.choice([16, 17, 128, 255])
                value = samples[9] if max(samples) < 16 else value
            out += bytes([rng.randrange(256)] + samples)
        items.append(out + octets(rng, rng.randrange(11)))
    return b"", items


def compare_signalling_payloads(rng, row):
    run, value = [], 0
    for _ in range(900):
        after = rng.randrange(16) if rng.random() < 0.3 else value
        run.append((rng.randrange(2), [value] * 4 + [after] * 6))
        value = after
    return b"", compare_payloads(rng, signalling_payloads(run))


def any_call(rng):
    """A fax call of any modulation, with HDLC or without; some payloads stamped that need not be."""
    modulation, stamp = rng.randrange(12), rng.randrange(32000)
    if rng.random() < 0.5:
        frames = [(octets(rng, rng.choice([0, 1, 2, 3, 8, 20, 40])), rng.choice([3, 3, 4])) for _ in range(rng.randint(0, 4))]
        sent = hdlc_call(modulation, frames, stamp)
    else:
        sent = page_call(modulation, [octets(rng, PAGE.get(modulation, 3)) for _ in range(rng.randint(0, 30))], stamp)
    if rng.random() < 0.2:
        sent = [bytes([p[0] | 128]) + octets(rng, 1) + b"\0" + p[1:] if p[0] < 128 and rng.random() < 0.5 else p for p in sent]
    return sent


def compare_fax_payloads(rng, row):
    """Calls lost, doubled, out of turn, damaged; neighbours exchanged, and other sound payloads between."""
    sent = []
    while len(sent) < 5000:
        sent += any_call(rng)
    items = []
    for item in compare_payloads(rng, sent):
        items.insert(len(items) - (rng.random() < 0.03), item)
        if rng.random() < 0.03:
            items.append(fax(rng))
    return b"", items


def compare_texts(rng, row):
    """Texts: sound, or with lines changed, exchanged, cut, too long."""
    items = []
    values = ["0", "1", "2", "3", "4", "5", "6", "7", "12", "13", "005", "05", "256", "255", "1000", "", " 5", "5\r", "-1", "0x5", "00"]
    for _ in range(rng.randint(1, 12)):
        text = text_of(records(rng))
        kind = rng.randrange(6)
        if kind == 1:
            text = damaged(rng, text)
        elif kind > 1 and text:
            lines = text.decode().split("\n")
            at = rng.randrange(len(lines))
            key = lines[at].split("=")[0]
            if kind == 2 or key == "syntax":
                word = rng.choice(SYNTAXES + ["", "acelpx", "PCM", "g729", "pcm ", "pcm\r", "\0pcm", "xxx\0\0\0\0\0pcm", "faxfaxfax"])
                lines[at] = "syntax=" + word
            elif kind == 3:
                lines[at] = key + "=" + rng.choice(values)
            elif kind == 4:
                lines[at:at + 1] = []
            else:
                lines[at] = rng.choice(["", "frame=", "cid", "m=1", "seq=0", "cid=5", lines[at] + "x"])
            text = "\n".join(lines).encode()
            if rng.random() < 0.2:
                text = text[:rng.randrange(len(text) + 1)]
        if rng.random() < 0.05:
            text = (text or b"cid=") * (8192 // max(1, len(text or b"cid=")) + 2)
            text = text[:rng.choice([8191, 8192, 8193, 9000])]
        items.append(text)
    return b"", items


COMPARE = {"c": compare_frames, "r": compare_frames, "h": compare_frames, "w": compare_material, "W": compare_material,
           "d": compare_digit_entries, "e": compare_digit_payloads, "s": compare_signalling_entries,
           "t": compare_signalling_payloads, "x": compare_fax_payloads, "p": compare_texts, "P": compare_texts}


def compare(row, seed):
    """The bytes of a comparing input: each item once."""
    rng = random.Random(f"{row} {seed}")
    text, items = COMPARE[row](rng, row)
    return joined(row, None, text, items)


def recording(size):
    """A recording of about so many octets: a text, then frames, most of them sound."""
    rng = random.Random(20261115)
    table = dict(BENCH)
    out = [text_of(table)]
    have = len(out[0])
    while have < size:
        line = b"frame=" + any_frame(rng, table).hex().encode() + b"\n"
        out.append(line)
        have += len(line)
    return b"".join(out)
