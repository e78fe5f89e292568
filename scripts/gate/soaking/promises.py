"""What a user is promised of the replies to a script, and the checker that holds replies to it.

The checker keeps which spans are live, which objects are held for what, what the device was asked, and the bytes of
both sides. All else (free ranges, places, which type and kind serve, sums) is worked out from these by the definitions,
anew each time. Where several shortest pieces are free, the reply says which one was taken.
"""
import bisect
import collections
import re

from language import LONG, WORD, parse

DEDICATED, IMPORTED, BUDDY, LIST = "dedicated", "imported", "buddy", "free list"
DEVICE, HOST, MANY, NO_TYPE = (
    "refused: Device memory exhausted", "refused: Host memory exhausted",
    "refused: Reached limit on allocated memory objects count",
    "refused: No compatible memory types from requested types support requested usage",
)
HIDDEN, MAPPED = "refused: Impossible to map non-host-visible memory", "refused: Block is already mapped"
REFUSALS = {"device": DEVICE, "host": HOST, "failed": "refused: Failed to map memory object"}
FAULTS = (
    "", "NameInUse", "UnknownName", "BadSize", "BadAlignment", "NoDeviceAddress", "BadRange", "BadType", "NoRemaining",
    "TooManyRemaining", "BadImportEnd", "NotMapped", "NoMemory",
)
REQUESTS = ("alloc", "required", "preferred")
LOCAL, VISIBLE, COHERENT, CACHED, UNFIT = 1, 2, 4, 8, 16 | 32
FAST, ACCESS, DOWNLOAD, UPLOAD, TRANSIENT, ADDRESS = 1, 2, 4, 8, 16, 32
# Real bytes: every host has the first number, none has the second; in between either answer is right.
SURE, HUGE = 2**24, 2**48


class Promise:
    STATUS, WRONG_LINE = "the status", "the first wrong line is reported"
    EACH, FORM = "one reply to each command", "a reply has its form"
    END = "the last line counts objects and questions"
    APART, INSIDE = "live blocks share no byte", "a block lies in its object"
    ALIGNED, SIZE = "a block is aligned", "a block is large enough"
    ATOMS = "blocks in shared non-coherent memory are whole atoms"
    TYPE, KIND = "the first type in rank that is not passed serves", "a request is served by its kind"
    ROOM, CHUNK = "a chunk is asked for only where none has room", "a new chunk has the size of its rule"
    NAME = "objects are named in the order of their grants"
    BUDGET = "a heap is asked for no more than it has left"
    PLACE = "a block is the front of a shortest piece or the tail of the last run"
    CAUSE, DUE = "a refusal has its cause", "what is to be refused is refused"
    NOTHING = "what changes nothing shows nowhere"
    FAULT, DONE = "the first fault is answered", "what misses no condition is done"
    REMAINING, HELD = "what remains is counted", "the held objects are counted"
    LEDGER = "a ledger is the sum of what is held"
    CHUNKS, FREE, MAXIMAL, MISSING, ORDER = (
        "a free range lies in a held chunk", "a free range touches no block", "a free range is maximal",
        "no free range is missing", "free ranges stand in order",
    )
    LATEST, ALLOWED = "a read gives the latest write", "a read gives a byte that was written"
    BYTES = "a read gives what host and device have"


class Broken(Exception):
    """A promise that a reply breaks."""

    def __init__(self, promise, detail):
        super().__init__(promise, detail)
        self.promise, self.detail = promise, detail


def hold(promise, fits, detail):
    if not fits:
        raise Broken(promise, detail)


def least_power(least):
    return 1 << (least - 1).bit_length() if least > 1 else 1


def down(number, multiple):
    return number // multiple * multiple


def up(number, multiple):
    return -(-number // multiple) * multiple


def pieces(start, end):
    """The ranges of 2^k bytes at a multiple of their length that lie in this free range, and there in no longer one."""
    while start < end:
        length = 1 << (end - start).bit_length() - 1
        length = min(length, start & -start) if start else length
        yield start, start + length
        start += length


class Object:
    """A held object: for one block, or a chunk for many. `live` has the ends of its blocks by their starts."""

    def __init__(self, name, memory_type, size, counted, kind):
        self.name, self.type, self.size, self.counted, self.kind = name, memory_type, size, counted, kind
        self.live, self.starts, self.known, self.host, self.device = {}, [], None, None, None

    def add(self, start, end):
        self.live[start], self.known = end, None
        bisect.insort(self.starts, start)

    def remove(self, start):
        self.starts.remove(start)
        del self.live[start]
        self.known = None

    def free(self):
        """Its longest free ranges; in a buddy chunk, its longest free pieces."""
        if self.known is None:
            ends = [0] + [self.live[start] for start in self.starts]
            gaps = [(start, end) for start, end in zip(ends, self.starts + [self.size]) if start < end]
            self.known = [piece for gap in gaps for piece in pieces(*gap)] if self.kind == BUDDY else gaps
        return self.known

    def meets(self, start, end):
        """Whether a live block has a byte of this range."""
        before = bisect.bisect_left(self.starts, end) - 1
        return before >= 0 and self.live[self.starts[before]] > start


class Block:
    def __init__(self, held, offset, size):
        self.held, self.offset, self.size, self.mapping = held, offset, size, None
        # By place in the block: the values that the latest write and what came after it gave.
        self.written = {}


Request = collections.namedtuple("Request", "size mask usage types hint")
# How a request is to be served: the kind and the type, the places that may be taken, the size of the object that is
# asked for (or 0), and the block's size.
Grant = collections.namedtuple("Grant", "kind type places asked size")


class World:
    """What is live and held after some commands."""

    def __init__(self, setup):
        self.setup, (dedicated, preferred, transient, starting, final, minimal, initial) = setup, setup.config
        self.dedicated, self.preferred, self.transient = dedicated, min(preferred, dedicated), max(transient, dedicated)
        self.blocks, self.objects, self.chunks = {}, {}, collections.defaultdict(list)
        self.remaining, self.asked, self.named = setup.count, collections.Counter(), 0
        self.version, self.replied = 0, {}
        self.ledgers = [0] * len(setup.heaps)
        # By memory type: what the latest request would ask of a heap that has less left.
        self.over = {}
        # By memory type: the atom, the least block of a buddy, the size of the next chunk of each kind, the greatest of
        # a free list.
        self.atoms, self.minimal, self.next, self.final = [], [], {}, []
        for index, (heap, props) in enumerate(setup.types):
            size, atom = setup.heaps[heap], setup.atom if props & (VISIBLE | COHERENT) == VISIBLE else 1
            self.atoms.append(atom)
            self.minimal.append(least_power(min(minimal, size // 1024)))
            self.next[index, BUDDY] = max(least_power(min(initial, size // 32)), self.minimal[-1])
            self.next[index, LIST] = down(min(starting, size // 32), atom) or atom
            self.final.append(down(min(max(final, starting, self.transient), size // 32), atom) or atom)

    def do(self, word, reply, fields):
        """Holds a reply to its promises, does what the command did, and says how the reply is counted, if not as
        itself."""
        number = self.fault(word, fields) or self.no_room(word, fields, reply)
        if number or reply.startswith("fault "):
            due = f"fault {number} {FAULTS[number]}" if number else "no fault"
            hold(Promise.FAULT, reply == due, f"{due} is due")
            return None
        return self.request(reply, *fields, word) if word in REQUESTS else getattr(self, f"do_{word}")(reply, *fields)

    # Faults.

    def fault(self, word, fields):
        """The first fault of a command that host memory has no part in, or 0."""
        if word in REQUESTS:
            name, size, mask, usage, _ = fields
            lacks_address = usage & ADDRESS and not self.setup.address
            if name in self.blocks or not size:
                return 1 if name in self.blocks else 3
            return 4 if mask == LONG or mask & mask + 1 else 5 if lacks_address else 0
        if word == "import":
            return self.import_fault(*fields)
        if word == "ranges":
            return 0 if fields[0] < len(self.atoms) else 7
        if word == "remaining":
            return 9 if fields[0] + len(self.objects) > WORD else 0
        return 0 if not fields else self.block_fault(word, *fields) if fields[0] in self.blocks else 2

    def import_fault(self, name, memory_type, object_size, offset, size):
        end = offset + size
        if name in self.blocks or memory_type >= len(self.atoms):
            return 1 if name in self.blocks else 7
        if not size or not object_size or end > object_size:
            return 6 if size and object_size else 3
        is_cut = end % self.atoms[memory_type] and end != object_size
        return 10 if is_cut else 0 if self.remaining else 8

    def block_fault(self, word, name, offset=0, length=0):
        """The fault of a command on a block that is there."""
        block, end = self.blocks[name], offset + (len(length) if isinstance(length, bytes) else length)
        if word in ("put", "get"):
            return 11 if not block.mapping else 6 if end > block.mapping[1] else 0
        return 3 if word == "map" and not length else 6 if end > block.size else 0

    @staticmethod
    def no_room(word, fields, reply):
        """The fault of a read of more bytes than there can be room for."""
        length = fields[2] if word in ("read", "get") else 0
        return 12 if length >= HUGE or length > SURE and reply == "fault 12 NoMemory" else 0

    # Requests.

    def ranked(self, usage, types):
        """The types that a request permits and that serve its usage, the nearest first."""
        sees, loads, fast = usage & (ACCESS | UPLOAD | DOWNLOAD), usage & (UPLOAD | DOWNLOAD), not usage or usage & FAST
        wanted = ((8, LOCAL, fast), (4, VISIBLE, sees), (2, CACHED, usage & DOWNLOAD), (1, COHERENT, loads))
        fit = []
        for index, (_, props) in enumerate(self.setup.types):
            if types >> index & 1 and not props & UNFIT and (props & VISIBLE or not sees):
                fit.append((sum(far for far, bit, want in wanted if bool(props & bit) != bool(want)), index))
        return [index for _, index in sorted(fit)]

    def kind_for(self, memory_type, request):
        share, atom = self.heap_size(memory_type) // 32, self.atoms[memory_type]
        if request.hint == "required" or request.hint == "preferred" and request.size >= self.preferred:
            return DEDICATED
        if not request.usage & TRANSIENT:
            return BUDDY if request.size < min(self.dedicated, share) else DEDICATED
        is_shared = request.size < min(self.transient, share) and up(request.size, atom) <= self.final[memory_type]
        return LIST if is_shared else DEDICATED

    def heap_size(self, memory_type):
        return self.setup.heaps[self.setup.types[memory_type][0]]

    def left(self, memory_type):
        """How many bytes its heap has left, fewer than none where imports are more than it has."""
        return self.heap_size(memory_type) - self.ledgers[self.setup.types[memory_type][0]]

    def is_visible(self, memory_type):
        return bool(self.setup.types[memory_type][1] & VISIBLE)

    def decide(self, request, reply):
        """How a request is to be served, or the refusal that is due. The device is asked as it has to be."""
        self.over = {}
        if request.size > self.setup.limit:
            return DEVICE
        if request.hint == "required" and not self.remaining:
            return MANY
        ranked = self.ranked(request.usage, request.types)
        for memory_type in ranked:
            if self.heap_size(memory_type) >= request.size:
                answer = self.try_type(memory_type, self.kind_for(memory_type, request), request, reply)
                if answer != DEVICE:
                    return answer
        return DEVICE if ranked else NO_TYPE

    def try_type(self, memory_type, kind, request, reply):
        """The same for one type, where DEVICE says that it is passed."""
        atom, size, asked, places = self.atoms[memory_type], request.size, request.size, []
        alignment = max(request.mask + 1, atom)
        if kind == BUDDY:
            size = least_power(max(size, alignment, self.minimal[memory_type]))
            if size >= 2**63:
                return DEVICE
            asked, places = max(self.next[memory_type, kind], 2 * size), self.fronts(memory_type, size)
        elif kind == LIST:
            size = up(size, atom)
            asked, places = self.list_chunk(memory_type, size), self.tails(memory_type, size, alignment)
        if places:
            return Grant(kind, memory_type, places, 0, size)
        if not self.remaining:
            return MANY
        if asked > self.left(memory_type):
            self.over[memory_type] = asked
            return DEVICE
        cause = self.object_refused(memory_type, asked, kind in (BUDDY, LIST), reply)
        if cause:
            return DEVICE if cause == "device" else HOST
        start = max(down(asked - size, alignment), 0) if kind == LIST else 0
        return Grant(kind, memory_type, [(self.named, start, asked if kind == LIST else size)], asked, size)

    def fronts(self, memory_type, size):
        """The fronts of the shortest free pieces that are long enough."""
        free = ((held, *place) for held in self.chunks[memory_type, BUDDY] for place in held.free())
        fit = [(end - start, held.name, start) for held, start, end in free if end - start >= size]
        shortest = min(fit)[0] if fit else 0
        return [(name, start, start + size) for length, name, start in fit if length == shortest]

    def tails(self, memory_type, size, alignment):
        """The tail of the last free run in which there is room."""
        for held in reversed(self.chunks[memory_type, LIST]):
            for start, end in reversed(held.free()):
                if down(end - size, alignment) >= start:
                    return [(held.name, down(end - size, alignment), end)]
        return []

    def list_chunk(self, memory_type, size):
        chunk = self.next[memory_type, LIST]
        return chunk if size <= chunk else min(chunk * least_power(-(-size // chunk)), self.final[memory_type])

    def refusal(self, question):
        """Asks the device: the planned cause, or nothing."""
        self.asked[question] += 1
        return self.setup.refusals.get((question, self.asked[question]))

    def object_refused(self, memory_type, size, is_shared, reply):
        """Asks for an object, and for its mapping where it is shared and the host sees it. An object that was made has
        used its name. Where host memory may run out for one and its mapping is to be refused, that is the cause."""
        visible = self.is_visible(memory_type)
        cause = self.refusal("allocate")
        planned = self.setup.refusals.get(("map", self.asked["map"] + 1)) if visible and is_shared else None
        is_open = size > SURE and reply == HOST and planned not in ("host", "failed")
        if not cause and visible and (size >= HUGE or is_open):
            cause = "host"
        if not cause:
            self.named += 1
        return cause or (self.refusal("map") if visible and is_shared else None)

    def request(self, reply, name, size, mask, usage, types, hint):
        request = Request(size, mask, usage & 63, types, hint)
        spans = self.span(reply)
        if spans:
            self.is_own(spans, request)
        answer = self.decide(request, reply)
        over = self.over.get(spans[0]) if spans else None
        hold(Promise.BUDGET, not over, f"{over} bytes would be asked of a heap that has fewer left")
        if isinstance(answer, str):
            self.is_expected(reply, answer)
            return f"{answer}, over the budget" if self.over and answer == DEVICE else answer
        hold(Promise.CAUSE, spans, f"a {answer.kind} block of type {answer.type} is due")
        self.is_due(spans, answer)
        return self.grant(name, spans, answer)

    @staticmethod
    def span(reply):
        """Type, object, offset and size of a block, or nothing where the reply is a refusal."""
        found = re.fullmatch(r"block type (\d+) object (\d+) offset (\d+) size (\d+)", reply)
        hold(Promise.FORM, found or reply.startswith("refused: "), "a block or a refusal")
        return found and tuple(map(int, found.groups()))

    def is_own(self, spans, request):
        """What holds of every block, wherever it lies."""
        memory_type, name, offset, size = spans
        hold(Promise.TYPE, memory_type < len(self.setup.types), "no such type")
        hold(Promise.SIZE, size >= request.size, f"{request.size} bytes were asked for")
        hold(Promise.ALIGNED, offset & request.mask == 0, f"the mask is {request.mask}")
        held = self.objects.get(name)
        if held:
            hold(Promise.INSIDE, offset + size <= held.size, f"the object has {held.size} bytes")
            hold(Promise.APART, not held.meets(offset, offset + size), "another block is there")
            atom = self.atoms[held.type]
            hold(Promise.ATOMS, held.kind not in (BUDDY, LIST) or (offset | size) % atom == 0, f"the atom is {atom}")

    def is_due(self, spans, grant):
        """Whether a block is one of those that are due."""
        memory_type, name, offset, size = spans
        held = self.objects.get(name)
        hold(Promise.TYPE, memory_type == grant.type, f"type {grant.type} serves")
        hold(Promise.KIND, not held or held.kind == grant.kind, f"a {grant.kind} block is due")
        hold(Promise.ROOM, held or grant.asked, f"there is room at {grant.places}")
        if grant.asked:
            hold(Promise.NAME, name == self.named, f"the next object is {self.named}")
        if grant.kind == LIST:
            if grant.asked:
                hold(Promise.CHUNK, offset + size == grant.asked, f"a chunk of {grant.asked} is due")
        else:
            hold(Promise.KIND, size == grant.size, f"a {grant.kind} block has {grant.size} bytes")
        hold(Promise.PLACE, (name, offset, offset + size) in grant.places, f"one of {grant.places[:9]} is due")

    def grant(self, name, spans, grant):
        memory_type, object_name, offset, size = spans
        if grant.asked:
            self.hold_object(Object(object_name, memory_type, grant.asked, grant.asked, grant.kind))
            grown = min(2 * grant.asked, self.final[memory_type]) if grant.kind == LIST else grant.asked
            self.next[memory_type, grant.kind] = grown
        self.add_block(name, object_name, offset, size)
        return f"block, {grant.kind}{', new object' if grant.asked else ', in a place'}"

    def count(self, held, by):
        self.remaining -= by
        self.ledgers[self.setup.types[held.type][0]] += by * held.counted

    def hold_object(self, held):
        self.objects[held.name] = held
        self.chunks[held.type, held.kind].append(held)
        self.count(held, 1)

    def add_block(self, name, object_name, offset, size):
        held = self.objects[object_name]
        held.add(offset, offset + size)
        self.blocks[name] = Block(held, offset, size)
        self.version += 1

    def do_import(self, reply, name, memory_type, object_size, offset, size):
        spans = self.span(reply)
        refused = REFUSALS.get(self.object_refused(memory_type, object_size, False, reply))
        if refused:
            self.is_expected(reply, refused)
            return None
        hold(Promise.CAUSE, spans, "a block is due")
        hold(Promise.NAME, spans[1] == self.named, f"the next object is {self.named}")
        hold(Promise.PLACE, spans == (memory_type, self.named, offset, size), "an import has the span that was given")
        self.hold_object(Object(self.named, memory_type, object_size, size, IMPORTED))
        self.add_block(name, self.named, offset, size)
        return "block, imported"

    # Returns, counts and free ranges.

    def do_free(self, reply, name):
        self.is_expected(reply, "ok")
        block = self.blocks.pop(name)
        held = block.held
        held.remove(block.offset)
        self.version += 1
        if held.kind == LIST:
            chunks = self.chunks[held.type, LIST]
            last = next(chunk for chunk in reversed(chunks) if chunk.free())
            self.sweep([chunk for chunk in chunks if chunk is not last])
        else:
            self.sweep([held])

    def sweep(self, chunks):
        for held in chunks:
            if not held.live:
                del self.objects[held.name]
                self.chunks[held.type, held.kind].remove(held)
                self.count(held, -1)

    def do_cleanup(self, reply):
        self.is_expected(reply, "ok")
        for memory_type in range(len(self.atoms)):
            self.sweep(list(self.chunks[memory_type, LIST]))
        self.version += 1

    def do_remaining(self, reply, count):
        self.is_expected(reply, "ok")
        self.remaining = count
        self.version += 1

    def is_replied_again(self, question, reply):
        """What was replied since the last change is replied again, word for word."""
        version, before = self.replied.get(question, (-1, ""))
        hold(Promise.NOTHING, version != self.version or reply == before, f"before it was {before}")
        self.replied[question] = self.version, reply

    def do_counts(self, reply):
        self.is_replied_again("counts", reply)
        found = re.fullmatch(r"counts remaining (\d+) held (\d+) used((?: \d+)*)", reply)
        hold(Promise.FORM, found, "counts are due")
        hold(Promise.REMAINING, int(found[1]) == self.remaining, f"{self.remaining} remain")
        hold(Promise.HELD, int(found[2]) == len(self.objects), f"{len(self.objects)} are held")
        hold(Promise.LEDGER, list(map(int, found[3].split())) == self.ledgers, f"they are {self.ledgers}")

    def do_ranges(self, reply, memory_type):
        self.is_replied_again(memory_type, reply)
        hold(Promise.FORM, re.fullmatch(r"ranges( none|( \d+:\d+-\d+)+)", reply), "free ranges are due")
        named = [tuple(map(int, re.split("[:-]", place))) for place in reply.split()[1:] if place != "none"]
        for name, start, end in named:
            held = self.objects.get(name)
            is_chunk = held and held.type == memory_type and held.kind in (BUDDY, LIST)
            hold(Promise.CHUNKS, is_chunk and start < end <= held.size, f"{name}:{start}-{end}")
            hold(Promise.FREE, not held.meets(start, end), f"{name}:{start}-{end}")
            hold(Promise.MAXIMAL, (start, end) in held.free(), f"{name}:{start}-{end}")
        chunks = (held for kind in (BUDDY, LIST) for held in self.chunks[memory_type, kind])
        due = sorted((held.name, *place) for held in chunks for place in held.free())
        hold(Promise.MISSING, set(named) == set(due), f"{sorted(set(due) - set(named))}")
        hold(Promise.ORDER, named == due, "by object and start, each once")

    # Bytes.

    def is_expected(self, reply, due):
        promise = Promise.DUE if due.startswith("refused: ") else Promise.DONE
        if reply.startswith("refused: "):
            promise = Promise.CAUSE
        hold(promise, reply == due, f"{due} is due")

    def mapping_refused(self, block, is_asked):
        """The refusal of a mapping of a block. Only that of an object of its own is asked of the device, and for no
        bytes nothing is."""
        if not self.is_visible(block.held.type) or block.mapping:
            return MAPPED if block.mapping else HIDDEN
        return REFUSALS.get(self.refusal("map")) if is_asked and block.held.kind in (DEDICATED, IMPORTED) else None

    def do_map(self, reply, name, offset, size):
        block = self.blocks[name]
        refused = self.mapping_refused(block, True)
        self.is_expected(reply, refused or f"mapped {block.offset + offset} {size}")
        if not refused:
            block.mapping = block.offset + offset, size

    def do_unmap(self, reply, name):
        self.is_expected(reply, f"unmapped {'yes' if self.blocks[name].mapping else 'no'}")
        self.blocks[name].mapping = None

    def sides(self, held):
        """The bytes of host and device, or nothing where there are too many to keep."""
        if held.host is None and held.size <= SURE:
            is_coherent = self.setup.types[held.type][1] & COHERENT
            held.device = bytearray(held.size)
            held.host = held.device if is_coherent else bytearray(b"\xee" * held.size)
        return held.host, held.device

    def copies(self, question, block, offset, length):
        """Flushes or invalidates whole atoms. Returns the refusal; then the first half was copied."""
        host, device = self.sides(block.held)
        if self.setup.types[block.held.type][1] & COHERENT:
            return None
        atom, at = self.atoms[block.held.type], block.offset + offset
        start, end = down(at, atom), min(up(at + length, atom), block.offset + block.size)
        refused = REFUSALS.get(self.refusal(question))
        end = start + (end - start) // 2 if refused else end
        if host is not None:
            to, of = (device, host) if question == "flush" else (host, device)
            to[start:end] = of[start:end]
        return refused

    def do_write(self, reply, name, offset, data):
        block = self.blocks[name]
        refused = self.mapping_refused(block, data)
        if not refused and data:
            self.store(block.held, block.offset + offset, data)
            refused = self.copies("flush", block, offset, len(data))
        self.is_expected(reply, refused or "ok")
        if not refused:
            block.written.update((offset + at, {byte}) for at, byte in enumerate(data))
        elif refused in (DEVICE, HOST):
            self.may_have(block, offset, data)

    def store(self, held, at, data):
        host, _ = self.sides(held)
        if host is not None:
            host[at:at + len(data)] = data

    @staticmethod
    def may_have(block, offset, data):
        for at, byte in enumerate(data, offset):
            if at in block.written:
                block.written[at].add(byte)

    def do_read(self, reply, name, offset, length):
        block = self.blocks[name]
        refused = self.mapping_refused(block, length) or length and self.copies("invalidate", block, offset, length)
        if refused:
            self.is_expected(reply, refused)
        else:
            self.are_read(reply, block, offset, length)

    def are_read(self, reply, block, offset, length):
        hold(Promise.CAUSE, not reply.startswith("refused: "), "bytes are due")
        hold(Promise.FORM, re.fullmatch("bytes (-|([0-9a-f]{2})+)", reply), "bytes are due")
        data = b"" if reply == "bytes -" else bytes.fromhex(reply[len("bytes "):])
        hold(Promise.FORM, len(data) == length, f"{length} bytes are due")
        if block.written:
            for at, byte in enumerate(data, offset):
                values = block.written.get(at) or {byte}
                promise = Promise.LATEST if len(values) == 1 else Promise.ALLOWED
                hold(promise, byte in values, f"byte {at} is one of {sorted(values)}")
        host, _ = self.sides(block.held)
        due = data if host is None else host[block.offset + offset:block.offset + offset + length]
        hold(Promise.BYTES, data == due, f"bytes {due.hex() or '-'} are due")

    def do_put(self, reply, name, offset, data):
        block = self.blocks[name]
        self.is_expected(reply, "ok")
        self.store(block.held, block.mapping[0] + offset, data)
        self.may_have(block, block.mapping[0] - block.offset + offset, data)

    def do_get(self, reply, name, offset, length):
        block = self.blocks[name]
        self.are_read(reply, block, block.mapping[0] - block.offset + offset, length)


def kind_of(word, reply, said):
    """What a reply is counted as."""
    known = said or (reply if reply.startswith(("fault ", "refused: ")) else reply.split()[0])
    return known if known.startswith(("block", "fault")) else f"{word}: {known}"


def judge(script, output, status, seen):
    """Holds the output and the status of a script to the promises, and counts in `seen` what was replied."""
    setup, commands, wrong = parse(script)
    if wrong:
        hold(Promise.WRONG_LINE, output == wrong.encode() + b"\n", f"{wrong} is due, not {output[:99]}")
        hold(Promise.STATUS, status == 2, f"it is {status}, and 2 is due")
        seen[re.sub(r"line \d+", "line N", wrong)] += 1
        return
    hold(Promise.STATUS, status == 0, f"it is {status}, and 0 is due: {output[:99]}")
    replies = output.decode("latin-1").split("\n")
    is_whole = len(replies) == len(commands) + 2 and not replies[-1]
    hold(Promise.EACH, is_whole, f"{len(commands)} commands, {len(replies) - 2} replies")
    world = World(setup)
    for at, ((word, fields), reply) in enumerate(zip(commands, replies)):
        try:
            said = world.do(word, reply, fields)
        except Broken as broken:
            detail = f"command {at + 1} ({word}) answers '{reply[:200]}': {broken.detail[:400]}"
            raise Broken(broken.promise, detail) from None
        seen[kind_of(word, reply, said)] += 1
    end = f"end objects 0 allocations {world.asked['allocate']}"
    hold(Promise.END, replies[-2] == end, f"'{end}' is due, not '{replies[-2]}'")


def broken_by(script, output, status, seen):
    """What breaks a promise, or nothing."""
    try:
        judge(script, output, status, seen)
    except Broken as broken:
        return broken
    except (ArithmeticError, LookupError, ValueError) as error:
        return Broken(Promise.FORM, f"the checker cannot read the replies: {error!r}")
    return None
