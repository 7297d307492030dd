"""Random memories of tags, laid out by the NFC Forum's documents (Type 1 to Type 5 Tag), as a reader gives them, and the message that each has."""
import collections
import re

NULL, LOCK_CONTROL, MEMORY_CONTROL, MESSAGE, PROPRIETARY, TERMINATOR = 0, 1, 2, 3, 0xfd, 0xfe
# what: the layout. given: the bytes. message: those of the message, whatever lies between them; none on an empty tag. wanted: the name of the hint that has
# to be given; '' where none has to, since the bytes don't say all. A hint that is given has to be true in any case.
Tag = collections.namedtuple('Tag', 'what given message wanted')
# Type 1 Tag, dynamic memory structure: blocks D to F are reserved.
RESERVED_BLOCKS = range(104, 128)
# The bytes of user memory of tags of Type 2 that are sold, and others.
SIZES_2, SIZES_1, SIZES_5 = (48, 128, 144, 504, 888, 256, 1904, 2032), (128, 256, 512, 1024, 2048), (64, 256, 504, 1024, 2040, 2048, 4096)
WRITING = 0x0f
# The first octet of a capability container; no other seems to begin in what is laid out.
CONTAINER = 0xe1


class Full(Exception):
    """The blocks don't fit into the memory."""


def length_octets(count):
    """The length of a TLV block: one octet, or from 255 on three."""
    return bytes([count]) if count < 255 else b'\xff' + count.to_bytes(2, 'big')


class Memory:
    """A memory with TLV blocks: their bytes go on after an area that is reserved."""

    def __init__(self, random, octets, begins, ends, reserved=()):
        self.random, self.octets, self.at, self.ends = random, bytearray(octets), begins, ends
        self.begins, self.reserved, self.areas = begins, set(reserved), [reserved] if reserved else []

    def put(self, octets):
        """Writes bytes at the next addresses that aren't reserved, and gives these."""
        places = []
        for octet in octets:
            while self.at in self.reserved:
                self.at += 1
            if self.at >= self.ends:
                raise Full
            self.octets[self.at] = octet
            places.append(self.at)
            self.at += 1
        return places

    def block(self, tag, value):
        """Writes a TLV block; the addresses are those of its value."""
        return self.put(bytes([tag]) + length_octets(len(value)) + value)[len(value) and -len(value):]

    def position(self, address):
        """An address as a control TLV states it: a page, the byte in it, and the exponent of the bytes of a page; one that none states becomes a lower one."""
        exponent = self.random.choice([it for it in range(16) if address >> it < 16 and address - (address >> it << it) < 16] or [max(0, address.bit_length() - 4)])
        return address >> exponent, min(15, address - (address >> exponent << exponent)), exponent

    def control(self):
        """Writes a control TLV that reserves an area after it. A Lock Control TLV counts bits, and a size of 0 is 256."""
        tag, size = self.random.choice((LOCK_CONTROL, MEMORY_CONTROL)), self.random.choice((0, 1, 2, 8, 9, 12, 16, 48, 255))
        places = self.block(tag, bytes(3))
        far = self.random.choice((20, 60, 200, 4000, 100000))
        page, byte, exponent = self.position(places[-1] + 16 + self.random.randrange(far))
        length = ((size or 256) + 7) // 8 if tag == LOCK_CONTROL else size or 256
        area = range((page << exponent) + byte, (page << exponent) + byte + length)
        for place, octet in zip(places, (page << 4 | byte, size, self.random.randrange(16) << 4 | exponent)):
            self.octets[place] = octet
        if area[0] > places[-1] and (page << 4 | byte) != CONTAINER:
            self.areas.append(area)
            self.reserved.update(area[:5000])
        else:
            raise Full

    def is_interrupted(self):
        """Whether an area may lie among the blocks: up to 4 bytes after their end, since bytes without the header of a Type 1 Tag look like those with it."""
        return any(area[0] < self.at + 4 for area in self.areas)


class Maker:
    """Makes tags by random numbers, with the messages that a function gives."""

    def __init__(self, random, message):
        self.random, self.pick, self.chance, self.message = random, random.choice, random.random, message

    def octets(self, count):
        """Random bytes in which no capability container seems to begin, or unused memory."""
        return self.random.randbytes(count).replace(b'\xe1', b'\xe0') if self.chance() < 0.5 else bytes(count)

    def some_message(self):
        """A message, none on an empty tag; some are of more than 255 bytes."""
        if self.chance() < 0.06:
            return b''
        count = self.pick((0, 0, 0, 90, 200, 400))
        written = self.message() if count == 0 else b'\xc1\1' + count.to_bytes(4, 'big') + b'T\2en' + b'a' * (count - 3)
        return written if written[:1] >= b'\x80' else b'\xd0\0\0'

    def before(self, memory, controls):
        """Writes what may come before the message: NULL TLVs, proprietary ones, and control TLVs."""
        for _ in range(self.pick((0, 0, 1, 1, 2, 3))):
            kind = self.random.randrange(2 + 3 * controls)
            if kind == 0:
                memory.put(bytes(self.random.randrange(1, 4)))
            elif kind == 1:
                memory.block(PROPRIETARY, self.octets(self.random.randrange(20)))
            else:
                memory.control()

    def filled(self, memory, controls):
        """Writes the blocks into a memory; the message, and the addresses of its length and its bytes."""
        message = self.some_message()
        self.before(memory, controls)
        places = memory.block(MESSAGE, message)
        self.end = memory.at
        if memory.at < memory.ends:
            memory.put(bytes([TERMINATOR]))
        return message, places

    def tag(self, what, memory, filled, begins, before=b''):
        """The tag of a memory as a reader gives it: from an address on, and up to its end or less, or a byte before."""
        message, places = filled
        ends = len(memory.octets) if self.chance() < 0.7 else self.random.randrange(begins + 1, len(memory.octets) + 1)
        given = before + bytes(memory.octets[begins:ends])
        is_there = ends > (places[0] if message else self.end - 1)
        seems_whole = begins == memory.begins and re.search(b'\xe1[\x10-\x13]', given[:18])
        wanted = '' if memory.is_interrupted() or not is_there or seems_whole else 'block' if message else 'empty'
        return Tag(what, given, message, wanted)

    def type_1(self):
        """A Type 1 Tag: its UID, which looks like no message and no TLV, the capability container at 8, the blocks from 12 on; the answer to RALL begins
        with the header ROM."""
        is_dynamic = self.chance() < 0.7
        size = self.pick(SIZES_1) if is_dynamic else 120
        uid = bytes([self.random.randrange(4, 0x80)]) + self.octets(7)
        head = uid + bytes([0xe1, self.pick((0x10, 0x11, 0x12)), size // 8 - 1, 0])
        octets = head + self.octets(size - len(head))
        memory = Memory(self.random, octets, 12, size if is_dynamic else 104, RESERVED_BLOCKS if is_dynamic else ())
        header = self.pick((b'', bytes([0x12 if is_dynamic else 0x11, 0x48])))
        return self.tag('Type 1' + ', dynamic' * is_dynamic, memory, self.filled(memory, is_dynamic), 0, header)

    def type_2(self):
        """A Type 2 Tag: 16 bytes before the blocks, the last 4 of them the capability container; after the user memory comes that of locks."""
        size = self.pick(SIZES_2)
        head = b'\4' + self.octets(11) + bytes([0xe1, self.pick((0x10, 0x10, 0x11, 0x12, 0x13)), size // 8, 0])
        memory = Memory(self.random, head + self.octets(size + self.pick((0, 4, 20))), 16, 16 + size)
        begins = self.pick((0, 0, 12, 16))
        return self.tag(f'Type 2, from byte {begins}', memory, self.filled(memory, True), begins)

    def type_3(self):
        """A Type 3 Tag: the attribute information block, and the message in blocks of 16 bytes."""
        message, writing = self.some_message(), WRITING if self.chance() < 0.3 else 0
        blocks = -(-len(message) // 16) + self.random.randrange(4)
        head = bytes([self.pick((0x10, 0x11)), 4, 1]) + blocks.to_bytes(2, 'big') + bytes([0, 0, 0, 0, writing, 1]) + len(message).to_bytes(3, 'big')
        given = head + sum(head).to_bytes(2, 'big') + message + self.octets(16 * blocks - len(message))
        given = given if self.chance() < 0.7 else given[:self.random.randrange(1, len(given) + 1)]
        wanted = 'empty' if not message else 'attributes' if not writing else 'unfinished'
        return Tag(f'Type 3, WriteF {writing}', given, message, '' if len(given) < 16 or writing and not message else wanted)

    def type_4(self):
        """A file of a Type 4 Tag: the length in two or four octets, and the message; a file may be longer, if its length is no block's tag."""
        message, size = self.some_message() or b'\xd0\0\0', self.pick((2, 2, 4))
        is_plain = 3 < len(message) < 253 or message == b'\xd0\0\0'
        rest = self.octets(self.random.randrange(1, 40)) if is_plain and self.chance() < 0.4 else b''
        return Tag(f'Type 4, length of {size}', len(message).to_bytes(size, 'big') + message + rest, message, 'file')

    def type_5(self):
        """A Type 5 Tag: a capability container of four octets, or of eight, and the blocks."""
        size = self.pick(SIZES_5)
        is_short = size // 8 < 256 and self.chance() < 0.7
        head = bytes([self.pick((0xe1, 0xe2)), 0x40]) + (bytes([size // 8, 1]) if is_short else bytes([0, 1, 0, 0]) + (size // 8).to_bytes(2, 'big'))
        memory = Memory(self.random, head + self.octets(size), len(head), len(head) + size)
        begins = self.pick((0, 0, len(head)))
        return self.tag(f'Type 5, from byte {begins}', memory, self.filled(memory, False), begins)

    def one(self):
        """A tag of one of the types whose message fits."""
        while True:
            try:
                return self.pick((self.type_1, self.type_2, self.type_2, self.type_3, self.type_4, self.type_5))()
            except Full:
                pass
