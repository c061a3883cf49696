"""Transport streams, the video of program streams, and pictures, read by the standards alone (ISO/IEC 13818-1, 13818-2), for the scripts of tools/ and tests/."""

PACKET = 188
ROUND = 300 << 33  # ticks in which the clock of a PCR goes round
TICKS = 27_000_000


# ---- packets

def pid_of(packet):
    return (packet[1] & 0x1F) << 8 | packet[2]


def payload_at(packet):
    """Where the payload of a packet begins, or its end where it has none."""
    control = packet[3] >> 4 & 3
    if not control & 1:
        return PACKET
    return 5 + packet[4] if control & 2 else 4


def pcr_of(packet):
    if not packet[3] & 0x20 or not packet[4] or not packet[5] & 0x10:
        return None
    word = int.from_bytes(packet[6:12], "big")
    return (word >> 15) * 300 + (word & 0x1FF)


def first_section(stream, pid):
    """The first section of a PID, joined from its packets."""
    section = b""
    for at in range(0, len(stream) - PACKET + 1, PACKET):
        packet = stream[at : at + PACKET]
        if pid_of(packet) != pid:
            continue
        payload = packet[payload_at(packet) :]
        if not section and packet[1] & 0x40:
            section = payload[1 + payload[0] :]
        elif section:
            section += payload
        if len(section) >= 3 and len(section) >= 3 + ((section[1] & 15) << 8 | section[2]):
            return section[: 3 + ((section[1] & 15) << 8 | section[2])]
    return None


def programs_of(stream):
    """The PMT's PID of each program number."""
    section = first_section(stream, 0)
    rows = (section[at : at + 4] for at in range(8, len(section) - 4, 4))
    return {row[0] << 8 | row[1]: (row[2] & 0x1F) << 8 | row[3] for row in rows if row[0] << 8 | row[1]}


def streams_of(stream, pmt):
    """The clock's PID of a program, its video's, and those of its audio."""
    section = first_section(stream, pmt)
    at, end, video, audios = 12 + ((section[10] & 15) << 8 | section[11]), len(section) - 4, None, []
    while at < end:
        kind, pid = section[at], (section[at + 1] & 0x1F) << 8 | section[at + 2]
        if kind == 2 and video is None:
            video = pid
        elif kind in (3, 4):
            audios.append(pid)
        at += 5 + ((section[at + 3] & 15) << 8 | section[at + 4])
    return (section[8] & 0x1F) << 8 | section[9], video, audios


def first_clock(stream, pid, slot):
    """The clock of the first PCR of a PID, less its place in a stream of this slot."""
    for number in range(len(stream) // PACKET):
        packet = stream[PACKET * number : PACKET * number + PACKET]
        if pid_of(packet) == pid and pcr_of(packet) is not None:
            return pcr_of(packet) - (PACKET * number + 10) * 5 * slot // 940
    return None


# ---- PES packets

class Reading:
    """A PID of PES packets: its bytes behind the headers, which times stand where in them, and what each packet brings: its number, the bytes of PES
    headers in it, and its payload."""

    def __init__(self, stream, pid):
        self.es, self.stated, self.arrivals = bytearray(), [], []
        head, header_left = b"", 0
        for number in range(len(stream) // PACKET):
            packet = stream[PACKET * number : PACKET * number + PACKET]
            if pid_of(packet) != pid:
                continue
            payload = packet[payload_at(packet) :]
            if payload and packet[1] & 0x40:
                head, header_left = b"", 9
            headers = 0
            while header_left and headers < len(payload):
                head += payload[headers : headers + 1]
                headers, header_left = headers + 1, header_left - 1
                if len(head) == 9:
                    header_left = head[8]
                if not header_left:
                    self.add_times(head)
            self.es += payload[headers:]
            self.arrivals.append((number, headers, len(payload)))

    def add_times(self, head):
        time = lambda at: (head[at] >> 1 & 7) << 30 | (head[at + 1] << 8 | head[at + 2]) >> 1 << 15 | (head[at + 3] << 8 | head[at + 4]) >> 1
        if head[7] & 0x80:
            self.stated.append((len(self.es), time(9), time(14) if head[7] & 0x40 else time(9)))


def video_of_elements(stream):
    """The first video stream of a program stream, its packets' bytes behind their headers (13818-1, 2.5.3)."""
    es, video, at = bytearray(), None, stream.find(b"\0\0\1")
    while 0 <= at < len(stream) - 14:
        code, size = stream[at + 3], 6 + int.from_bytes(stream[at + 4 : at + 6], "big")
        if code == 0xB9:
            size = 4
        elif code == 0xBA:
            size = 14 + (stream[at + 13] & 7)
        elif 0xE0 <= code <= 0xEF and video in (None, code):
            video = code
            es += stream[at + 9 + stream[at + 8] : at + size]
        at = stream.find(b"\0\0\1", at + size)
    return es


# ---- pictures

class Picture:
    """A coded picture: where its unit begins and ends, its type, structure and flags, and the number of its frame in the order of showing."""

    def __init__(self, begin):
        self.begin = begin
        self.end = self.extension = self.kind = self.shown = None


def start_codes(es):
    at = es.find(b"\0\0\1")
    while 0 <= at < len(es) - 3:
        yield at, es[at + 3]
        at = es.find(b"\0\0\1", at + 3)


def pictures_of(es):
    """The pictures in the order of coding, from the first sequence header on."""
    pictures, behind_slice, group, last = [], True, 0, -1
    for at, code in start_codes(es):
        if code in (0xB3, 0xB8, 0x00) and behind_slice and (pictures or code == 0xB3):
            behind_slice = False
            pictures.append(Picture(at))
        if not pictures:
            continue
        one = pictures[-1]
        if code == 0xB8:
            group = last + 1
        elif code == 0x00:
            one.shown = group + (es[at + 4] << 2 | es[at + 5] >> 6)
            one.kind = "?IPB"[es[at + 5] >> 3 & 7]
            last = max(last, one.shown)
        elif code == 0xB5 and es[at + 4] >> 4 == 8:
            one.extension = at
            one.structure, one.top_first, one.repeats = es[at + 6] & 3, es[at + 7] >> 7, es[at + 7] >> 1 & 1
        elif 1 <= code <= 0xAF:
            behind_slice = True
    for one, following in zip(pictures, pictures[1:] + [None]):
        one.end = following.begin if following else len(es)
    return pictures


def vbv_of(es):
    """vbv_buffer_size of the first sequence header, in units of 2,048 bytes."""
    at = es.find(b"\0\0\1\xb3")
    return (es[at + 10] & 0x1F) << 5 | es[at + 11] >> 3
