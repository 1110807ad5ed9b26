#!/usr/bin/env python3
"""Makes the volumes that the program `scan` is shown on.

    python3 tools/sample.py demo FILE         six pages: good, behind, stale, failed twice (backup, format) and blank
    python3 tools/sample.py demo-first FILE   the same under the first heading
    python3 tools/sample.py demo-archive FILE the log archive of either
    python3 tools/sample.py mirror FILE       a second box's volume, whose log differs from the demo's at record 9
    python3 tools/sample.py turned FILE       two pages of a log that has turned: records 3 to 10 in 8 slots
    python3 tools/sample.py visit FILE        five pages of such a log, for the forecast: records 3 to 10 in 8 slots
    python3 tools/sample.py full FILE         the largest volume, log and notes past their first turn; some pages damaged
    python3 tools/sample.py k6 FILE           the worked case K6 with page 2 good, under the first heading

A second reader of the format, on purpose: it shares no code with the store.
"""
import struct
import sys


def total(terms):
    a, b = 1, 0
    for term in terms:
        a = (a + term) % 65535
        b = (b + a) % 65535
    return b * 65536 + a


def word_sum(data):
    return total(word for (word,) in struct.iter_unpack("<H", data))


def byte_sum(data):
    return total(data)


# a heading's four bytes, and how its images are summed
FIRST, SECOND = (b"CHPV", word_sum), (b"CHP2", byte_sum)


def sealed(data, add=word_sum):
    return data + struct.pack("<I", add(data))


def image(heading, page, lsn, body):
    return sealed(struct.pack("<HHI", page, 0, lsn) + body.ljust(244, b"\0")[:244], heading[1])


def record(lsn, prev, page, kind, offset=0, fill=0, payload=b""):
    head = struct.pack("<IIHBBHBB", lsn, prev, page, kind, len(payload), offset, fill, 0)
    return sealed(head + payload.ljust(44, b"\0"))


def note(number, page, kind, slot, lsn):
    return sealed(struct.pack("<IHBBI", number, page, kind, slot, lsn))


def volume(heading, pages, slots, log, notes, log_slots, note_slots):
    """The sections in their order, each after its count; unused log and note slots are zero."""
    log = b"".join(log).ljust(64 * log_slots, b"\0")
    notes = b"".join(notes).ljust(16 * note_slots, b"\0")
    parts = [heading[0]]
    images = ((len(pages), b"".join(pages)), (len(slots), b"".join(slots)))
    for count, items in (*images, (log_slots, log), (note_slots, notes)):
        parts += [struct.pack("<I", count), items]
    return b"".join(parts)


def torn(data):
    """The first half of a store, over what was there before."""
    return data[: len(data) // 2] + b"\0" * (len(data) - len(data) // 2)


FORMAT, PUT, SLIDE = 1, 2, 3
WRITTEN, BACKED_UP = 1, 2


LINES = [b"06:00 all calm", b"06:10 bed 4 moved", b"06:20 dose given"]


def demo_log():
    """The durable log records of a ward's handover pages."""
    return [
        record(1, 0, 1, FORMAT, fill=32),
        record(2, 0, 2, FORMAT, fill=32),
        record(3, 0, 3, FORMAT, fill=32),
        record(4, 0, 4, FORMAT, fill=32),
        record(5, 0, 5, FORMAT, fill=32),
        record(6, 1, 1, PUT, payload=LINES[0]),
        record(7, 2, 2, PUT, payload=LINES[0]),
        record(8, 3, 3, PUT, payload=LINES[1]),
        record(9, 4, 4, PUT, payload=LINES[1]),
        record(10, 5, 5, SLIDE, payload=LINES[2]),
        record(11, 7, 2, SLIDE, payload=LINES[2]),
    ]


def demo(heading):
    """Those pages after a night of power cuts."""
    spaces = b" " * 244
    line = LINES
    log = [*demo_log(), torn(record(12, 6, 1, PUT, offset=40, payload=b"lost at the cut"))]

    def body(*lines):
        return b"".join(lines).ljust(244, b" ")

    pages = [
        image(heading, 1, 6, body(line[0])),              # good
        image(heading, 2, 7, body(line[0])),              # behind: record 11 is durable, the page was not written since
        image(heading, 3, 3, spaces),                     # stale: a confirmed write that the disk lost
        torn(image(heading, 4, 9, body(line[1]))),        # failed, with a backup at 9
        torn(image(heading, 5, 10, body(line[2]))),       # failed, no backup
        b"\0" * 256,                             # blank
    ]
    slots = [image(heading, 4, 9, body(line[1])), b"\0" * 256]
    notes = [
        note(1, 1, WRITTEN, 0, 6),
        note(2, 2, WRITTEN, 0, 7),
        note(3, 3, WRITTEN, 0, 8),
        note(4, 4, BACKED_UP, 1, 9),
    ]
    return volume(heading, pages, slots, log, notes, 16, 8)


def demo_archive():
    """The log archive of those pages: a section a page, each after its count."""
    sections = [[r for r in demo_log() if r[8:10] == struct.pack("<H", page)] for page in range(1, 7)]
    return b"".join(struct.pack("<I", len(records)) + b"".join(records) for records in sections)


def mirror():
    """A second box that recorded the demo's changes by itself, under the first heading: another change from 9 on."""
    log = [*demo_log()[:8], record(9, 8, 3, PUT, payload=LINES[0]), record(10, 4, 4, PUT, payload=LINES[1])]
    return volume(FIRST, [b"\0" * 256] * 6, [], log, [], 12, 0)


def turned():
    """A log ring past its first turn: records 1 and 2 have left it. Page 2's image is torn."""
    line = [b"07:00 round begun", b"07:10 round ended"]
    body = {at: line[at % 2].ljust(244, b" ") for at in range(1, 11)}
    chain = {1: [3, 5, 6, 8, 9], 2: [4, 7, 10]}
    before = {n: (links[i - 1] if i else page) for page, links in chain.items() for i, n in enumerate(links)}
    owner = {n: page for page, links in chain.items() for n in links}
    log = {n: record(n, before[n], owner[n], PUT, payload=line[n % 2]) for n in owner}
    notes = [
        note(1, 1, BACKED_UP, 1, 3),
        note(2, 2, BACKED_UP, 2, 4),
        note(3, 1, BACKED_UP, 3, 5),
        note(4, 1, WRITTEN, 0, 9),
        note(5, 2, WRITTEN, 0, 10),
    ]
    pages = [image(SECOND, 1, 9, body[9]), torn(image(SECOND, 2, 10, body[10]))]
    slots = [image(SECOND, 1, 3, body[3]), image(SECOND, 2, 4, body[4]), image(SECOND, 1, 5, body[5])]
    return volume(SECOND, pages, slots, [log[n] for n in (9, 10, 3, 4, 5, 6, 7, 8)], notes, 8, 6)


def visit():
    """A log ring past its first turn. Page 1 is good, page 2 torn with a backup below the run, page 3 blank, page 4
    behind, and page 5 lost: its records have left the log, and neither its image nor its backup is there."""
    line = b"08:00 visit planned"
    body = line.ljust(244, b" ")
    log = [
        record(9, 8, 1, PUT, payload=line),
        record(10, 4, 2, PUT, payload=line),
        record(3, 0, 1, FORMAT, fill=32),
        record(4, 2, 2, PUT, payload=line),
        record(5, 0, 4, FORMAT, fill=32),
        record(6, 5, 4, PUT, payload=line),
        record(7, 6, 4, PUT, payload=line),
        record(8, 3, 1, PUT, payload=line),
    ]
    pages = [image(SECOND, 1, 9, body), torn(image(SECOND, 2, 10, body)), b"\0" * 256, image(SECOND, 4, 6, body)]
    slots = [image(SECOND, 1, 8, body), image(SECOND, 2, 2, b" " * 244), torn(image(SECOND, 5, 1, b" " * 244))]
    notes = [note(1, 5, BACKED_UP, 3, 1), note(2, 2, BACKED_UP, 2, 2), note(3, 1, BACKED_UP, 1, 8)]
    return volume(SECOND, [*pages, b"\0" * 256], slots, log, notes, 8, 4)


def full():
    """The largest volume: 64 pages written in turn, each backed up every fourth time, into alternating slots. Then
    page 7 is torn, page 12's last write lost, page 20's last write cut, and page 33 lost with its backup."""
    pages, slots, log, notes = {}, {}, {}, []
    for n in range(1, 1501):
        page, turn = (n - 1) % 64 + 1, (n - 1) // 64
        line = b"%02d:%02d bed %d looked after" % (turn % 24, n % 60, page)
        log[n] = record(n, n - 64, page, PUT, payload=line) if turn else record(n, 0, page, FORMAT, fill=32)
        body = line.ljust(244, b" ") if turn else b" " * 244
        if page == 20 and n > 1400:
            continue
        if page != 12 or n < 1400:
            pages[page] = image(SECOND, page, n, body)
        notes.append(note(len(notes) + 1, page, WRITTEN, 0, n))
        if turn % 4 == 0:
            slot = page if turn % 8 else 64 + page
            slots[slot] = image(SECOND, page, n, body)
            notes.append(note(len(notes) + 1, page, BACKED_UP, slot, n))
    pages[7], pages[33] = torn(pages[7]), torn(pages[33])
    slots[33], slots[97] = torn(slots[33]), torn(slots[97])

    def ring(items, count):
        return [items[count * ((len(items) - 1 - i) // count) + i] for i in range(count)]

    records = ring([log[n] for n in sorted(log)], 1024)
    images = [pages[p] for p in range(1, 65)], [slots[s] for s in range(1, 129)]
    return volume(SECOND, *images, records, ring(notes, 1024), 1024, 1024)


def k6():
    log = [record(1, 0, 1, FORMAT, fill=7), record(2, 0, 2, FORMAT, fill=9), record(3, 1, 1, PUT, payload=b"AB")]
    return volume(FIRST, [image(FIRST, 1, 1, b"\7" * 244), image(FIRST, 2, 2, b"\t" * 244)], [b"\0" * 256], log, [], 4, 4)


def main():
    makers = {
        "demo": lambda: demo(SECOND),
        "demo-first": lambda: demo(FIRST),
        "demo-archive": demo_archive,
        "mirror": mirror,
        "turned": turned,
        "visit": visit,
        "full": full,
        "k6": k6,
    }
    if len(sys.argv) != 3 or sys.argv[1] not in makers:
        sys.exit(__doc__)
    with open(sys.argv[2], "wb") as out:
        out.write(makers[sys.argv[1]]())


if __name__ == "__main__":
    main()
