"""The machine, turn by turn: rights and owners are lists of words. There is no cache, since no turn depends on one."""

import struct

import instructions
from instructions import WORD

BASE = 0x80000000
SAVED = [2, 3, 4, 8, 9, *range(18, 28)]
NONE, READ, WRITE, EXECUTE = range(4)
LINE, PAGE, REGION = 16, 1024, 1 << 20


class Trap(Exception):
    """A fault, by its cause and value."""

    def __init__(self, cause, value):
        super().__init__(cause, value)
        self.cause, self.value = cause, value % WORD


class Module:
    """A module: its rights word by word, its areas as (first word, words), its live blocks by address."""

    def __init__(self, words, kills):
        self.map = bytearray(words)
        self.heap = self.stack = (0, 0)
        self.blocks = []
        self.kills, self.dead = kills, False


class Hart:
    """A hart. While it waits, `heard` has the harts that have heard its call; `code` is of the exit that ended it."""

    def __init__(self, domain, pc):
        self.regs = [0] * 32
        self.pc, self.domain = pc, domain
        self.frames = []
        self.status, self.code = "running", None
        self.heard = set()


class Machine:
    """A machine at boot; `turn` makes one turn of a hart. What the last turn made is `fault` and `code`."""

    def __init__(self, manifest, images):
        self.words = manifest["ram_kib"] * 256
        self.kind = manifest.get("tables", "packed")
        self.limit = (manifest.get("upper", 128), manifest.get("leaf", 4096), manifest.get("spill", 4096))
        self.ram, self.owners = bytearray(4 * self.words), bytearray(self.words)
        self.modules, self.gates, self.harts = [], {}, []
        self.turns, self.console = 0, bytearray()
        self.fault = self.code = None
        for domain, table in enumerate(manifest["module"], 1):
            self.add_module(domain, table, images[domain - 1], len(manifest["hart"]))
        names = [table["name"] for table in manifest["module"]]
        for domain, table in enumerate(manifest["module"], 1):
            entry = self.entries(images[domain - 1])
            for gate in table.get("gates", []):
                for name in gate["from"]:
                    self.gates[names.index(name) + 1, self.word_of(entry(gate["entry"]))] = domain
            for back in table.get("returns", []):
                self.gates[domain, self.word_of(entry(back))] = domain
        for number, table in enumerate(manifest["hart"]):
            domain = names.index(table["module"]) + 1
            image = images[domain - 1]
            hart = Hart(domain, self.entries(image)(table.get("entry", image.entry)))
            hart.regs[2] = self.stack_address(domain, number)
            self.harts.append(hart)

    # At boot.

    def add_module(self, domain, table, image, harts):
        module = Module(self.words, table.get("on_fault") == "kill")
        self.modules.append(module)
        for address, data, size, perm in image.segments:
            self.ram[address - BASE : address - BASE + len(data)] = data
            span = (self.word_of(address), (size + 3) // 4)
            self.lay(module.map, span, perm)
            if not table.get("seal", False):
                self.lay(self.owners, span, domain)
        if "heap" in table:
            module.heap = (self.word_of(table["heap"]), table["heap_words"])
            self.lay(self.owners, module.heap, domain)
        if "stack" in table:
            module.stack = (self.word_of(table["stack"]), table["stack_words"])
            area = (module.stack[0], module.stack[1] * harts)
            self.lay(self.owners, area, domain)
            self.lay(module.map, area, WRITE)
        if "input" in table:
            at, area = table["input_at"] - BASE, (self.word_of(table["input_at"]), table["input_words"])
            self.lay(self.owners, area, domain)
            self.lay(module.map, area, WRITE if table.get("input_perm", "r") == "rw" else READ)
            self.ram[at : at + 4 + len(image.input)] = struct.pack("<I", len(image.input)) + image.input

    @staticmethod
    def entries(image):
        return lambda entry: image.symbols[entry] if isinstance(entry, str) else entry

    @staticmethod
    def word_of(address):
        return (address - BASE) // 4

    @staticmethod
    def lay(cells, span, value):
        cells[span[0] : span[0] + span[1]] = bytes([value]) * span[1]

    def stack_address(self, domain, hart):
        first, words = self.module(domain).stack
        return BASE + 4 * (first + words * (hart + 1)) if words else 0

    # What is read.

    def module(self, domain):
        return self.modules[domain - 1]

    def in_ram(self, address, size=1):
        return BASE <= address and address + size <= BASE + 4 * self.words

    def may(self, domain, address, perms):
        return self.in_ram(address) and self.module(domain).map[self.word_of(address)] in perms

    def load(self, address, size):
        return int.from_bytes(self.ram[address - BASE : address - BASE + size], "little")

    def store(self, address, size, value):
        self.ram[address - BASE : address - BASE + size] = (value % (1 << 8 * size)).to_bytes(size, "little")

    def standing(self, hart):
        """The instruction at which a hart stands, or None."""
        if hart.status == "halted" or not self.may(hart.domain, hart.pc, [EXECUTE]):
            return None
        return instructions.decode(self.load(hart.pc, 4))

    def all_halted(self):
        return all(hart.status == "halted" for hart in self.harts)

    # A turn.

    def turn(self, number):
        """Makes a turn of a hart, and tells what it was."""
        self.turns += 1
        self.fault = self.code = None
        if number >= len(self.harts) or self.harts[number].status == "halted":
            return "idle"
        hart = self.harts[number]
        for other in self.harts:
            if other is not hart and other.status == "waiting":
                other.heard.add(number)
        if hart.status == "waiting":
            return self.take_effect(number, hart) if self.is_ready(number) else "waited"
        try:
            return self.step(number, hart)
        except Trap as trap:
            self.trap(hart, trap)
            return "trapped"

    def is_ready(self, number):
        heard = self.harts[number].heard
        others = [other for other, hart in enumerate(self.harts) if other != number and hart.status != "halted"]
        return all(other in heard for other in others)

    def trap(self, hart, trap):
        self.fault = trap
        if trap.cause != 20 and self.module(hart.domain).kills:
            self.module(hart.domain).dead = True
        if hart.frames:
            self.give_up(hart)
            hart.regs[10] = 0xFFFFFF00 + trap.cause
        else:
            hart.status = "halted"

    def give_up(self, hart):
        hart.pc, hart.domain, saved = hart.frames.pop()
        for register, value in zip(SAVED, saved):
            hart.regs[register] = value

    def step(self, number, hart):
        if self.module(hart.domain).dead:
            raise Trap(20, hart.pc)
        target = self.gate(hart)
        if target not in (None, hart.domain):
            return self.cross(number, hart, target)
        if not self.may(hart.domain, hart.pc, [EXECUTE]):
            raise Trap(1, hart.pc)
        inst = instructions.decode(self.load(hart.pc, 4))
        if inst is None:
            raise Trap(2, self.load(hart.pc, 4))
        return self.execute(number, hart, inst)

    def gate(self, hart):
        """The target of the gate at a hart's pc: its own domain for a return gate."""
        return self.gates.get((hart.domain, self.word_of(hart.pc))) if hart.pc % 4 == 0 else None

    def cross(self, number, hart, target):
        back = hart.regs[1]
        if back % 4:
            raise Trap(19, back)
        if self.module(target).dead:
            hart.pc, hart.regs[10] = back, 0xFFFFFF14
            return "returned"
        if len(hart.frames) >= 64:
            raise Trap(16, hart.pc)
        stacks = [saved[0] for _, caller, saved in hart.frames if caller == target]
        hart.frames.append((back, hart.domain, [hart.regs[register] for register in SAVED]))
        hart.domain = target
        hart.regs[2] = stacks[-1] if stacks else self.stack_address(target, number)
        return "crossed"

    def execute(self, number, hart, inst):
        name, regs = inst.name, hart.regs
        a, b = regs[inst.rs1], regs[inst.rs2]
        if name == "ebreak":
            raise Trap(3, hart.pc)
        if name == "ecall":
            return self.ask(number, hart)
        if name in ("jal", "jalr"):
            return self.jump(hart, inst.rd, (hart.pc + inst.imm if name == "jal" else (a + inst.imm) & ~1) % WORD)
        following = (hart.pc + 4) % WORD
        if name in instructions.BRANCHES.values():
            if instructions.is_taken(name, a, b):
                following = (hart.pc + inst.imm) % WORD
                if following % 4:
                    raise Trap(0, following)
        elif name in instructions.LOADS.values():
            self.put(regs, inst.rd, self.loaded(hart, name, (a + inst.imm) % WORD))
        elif name in instructions.STORES.values():
            self.stored(hart, name, (a + inst.imm) % WORD, b)
        elif name in ("lui", "auipc"):
            self.put(regs, inst.rd, inst.imm + (hart.pc if name == "auipc" else 0))
        elif name != "fence":
            is_of_two = name in instructions.REGISTERS.values()
            self.put(regs, inst.rd, instructions.result(name, a, b if is_of_two else inst.imm))
        hart.pc = following
        return "ran"

    @staticmethod
    def put(regs, register, value):
        if register:
            regs[register] = value % WORD

    def loaded(self, hart, name, address):
        size = instructions.SIZES[name]
        if address % size:
            raise Trap(4, address)
        if not self.may(hart.domain, address, [READ, WRITE, EXECUTE]):
            raise Trap(5, address)
        value = self.load(address, size)
        return value if name.endswith("u") else instructions.signed(value, 8 * size)

    def stored(self, hart, name, address, value):
        size = instructions.SIZES[name]
        if address % size:
            raise Trap(6, address)
        if not self.may(hart.domain, address, [WRITE]):
            raise Trap(7, address)
        self.store(address, size, value)

    def jump(self, hart, register, target):
        following = hart.pc + 4
        if self.gate(hart) == hart.domain:
            if not hart.frames:
                raise Trap(18, target)
            if hart.frames[-1][0] != target:
                raise Trap(17, target)
            self.put(hart.regs, register, following)
            self.give_up(hart)
            return "returned"
        if target % 4:
            raise Trap(0, target)
        self.put(hart.regs, register, following)
        hart.pc = target
        return "ran"

    # Supervisor calls.

    def ask(self, number, hart):
        """An ECALL: the call takes effect at once, or is announced."""
        if hart.regs[17] in (3, 4, 6, 7):
            hart.status, hart.heard = "waiting", set()
            if not self.is_ready(number):
                return "called"
        return self.take_effect(number, hart)

    def take_effect(self, number, hart):
        hart.status = "running"
        answer = self.serve(number, hart)
        if answer is not None:
            hart.regs[10] = answer % WORD
            hart.pc = (hart.pc + 4) % WORD
        return "called"

    def serve(self, number, hart):
        """The answer of a call, below zero where it is refused; None where it ended the hart."""
        calls = {
            1: self.leave, 2: self.write, 3: self.grant, 4: self.revoke_all, 5: self.transfer, 6: self.alloc,
            7: self.free, 8: self.add_gate, 9: self.ungate, 10: self.return_gate, 11: self.query, 13: self.exchange,
        }  # fmt: skip
        call = hart.regs[17]
        if call == 12:
            return 256 * number + hart.domain
        return calls[call](hart, *hart.regs[10:14]) if call in calls else -13

    def range_of(self, address, size):
        """The words of a range, or None."""
        if size == 0 or address % 4 or not self.in_ram(address, size):
            return None
        return self.word_of(address), (size + 3) // 4

    def owns(self, hart, span):
        return all(owner == hart.domain for owner in self.owners[span[0] : span[0] + span[1]])

    def place_of(self, address):
        """The word that an address is, or None."""
        return self.word_of(address) if address % 4 == 0 and self.in_ram(address) else None

    def change(self, span, perms):
        """Gives each of these domains a right on words, where the tables hold it."""
        before = {domain: bytes(self.module(domain).map) for domain in perms}
        for domain, perm in perms.items():
            self.lay(self.module(domain).map, span, perm)
        if all(need <= limit for need, limit in zip(self.needs(), self.limit)):
            return True
        for domain, cells in before.items():
            self.module(domain).map[:] = cells
        return False

    def domains(self):
        return range(1, len(self.modules) + 1)

    def leave(self, hart, code, *_):
        if hart.frames:
            return -10
        hart.status, hart.code, self.code = "halted", code, code
        return None

    def write(self, hart, address, size, *_):
        if size > 4096:
            return -11
        if size and not self.in_ram(address, size):
            return -1
        touched = range(address & ~3, address + size, 4)
        if size and not all(self.may(hart.domain, at, [READ, WRITE, EXECUTE]) for at in touched):
            return -12
        self.console += self.ram[address - BASE : address - BASE + size] if size else b""
        return size

    def grant(self, hart, address, size, domain, perm):
        span = self.range_of(address, size)
        if span is None:
            return -1
        if domain not in self.domains():
            return -3
        if perm > 3:
            return -4
        if not self.owns(hart, span):
            return -2
        return 0 if self.change(span, {domain: perm}) else -5

    def revoke_all(self, hart, address, size, *_):
        span = self.range_of(address, size)
        if span is None:
            return -1
        if not self.owns(hart, span):
            return -2
        others = {domain: NONE for domain in self.domains() if domain != hart.domain}
        return 0 if self.change(span, others) else -5

    def transfer(self, hart, address, size, domain, _):
        span = self.range_of(address, size)
        first, words = self.module(hart.domain).heap
        if span is None or words and span[0] < first + words and first < span[0] + span[1]:
            return -1
        if domain > len(self.modules):
            return -3
        if not self.owns(hart, span):
            return -2
        owners = bytearray(self.owners)
        self.lay(owners, span, domain)
        if runs(owners) > 4096:
            return -14
        self.owners = owners
        return 0

    def alloc(self, hart, words, *_):
        if words == 0:
            return -1
        module = self.module(hart.domain)
        place, end = module.heap[0], sum(module.heap)
        for first, count in [*module.blocks, (end, 0)]:
            if first - place >= words:
                break
            place = first + count
        else:
            return -6
        if len(module.blocks) >= 1024:
            return -7
        if not self.change((place, words), {d: WRITE if d == hart.domain else NONE for d in self.domains()}):
            return -5
        module.blocks = sorted([*module.blocks, (place, words)])
        self.ram[4 * place : 4 * (place + words)] = bytes(4 * words)
        return BASE + 4 * place

    def free(self, hart, address, *_):
        module = self.module(hart.domain)
        blocks = [block for block in module.blocks if block[0] == self.place_of(address)]
        if not blocks:
            return -8
        if not self.change(blocks[0], {domain: NONE for domain in self.domains()}):
            return -5
        module.blocks.remove(blocks[0])
        return 0

    def add_gate(self, hart, address, domain, *_):
        place = self.place_of(address)
        if place is None:
            return -1
        if domain not in self.domains() or domain == hart.domain:
            return -3
        return self.gate_for(hart, domain, place)

    def return_gate(self, hart, address, *_):
        place = self.place_of(address)
        return -1 if place is None else self.gate_for(hart, hart.domain, place)

    def gate_for(self, hart, domain, place):
        if self.owners[place] != hart.domain:
            return -2
        if len(self.gates) >= 256 and (domain, place) not in self.gates:
            return -9
        self.gates.pop((domain, place), None)
        self.gates[domain, place] = hart.domain
        return 0

    def ungate(self, hart, address, domain, *_):
        place = self.place_of(address)
        if place is None:
            return -1
        if domain not in self.domains():
            return -3
        if self.owners[place] != hart.domain:
            return -2
        return -15 if self.gates.pop((domain, place), None) is None else 0

    def query(self, hart, address, domain, *_):
        place = self.place_of(address)
        if place is None:
            return -1
        if domain not in self.domains():
            return -3
        if domain != hart.domain and self.owners[place] != hart.domain:
            return -2
        return self.module(domain).map[place]

    def exchange(self, hart, address, word, *_):
        if self.place_of(address) is None:
            return -1
        if not self.may(hart.domain, address, [WRITE]):
            return -12
        hart.regs[11] = self.load(address, 4)
        self.store(address, 4, word)
        return 0

    # What the tables need.

    def needs(self):
        """The upper frames, leaf frames and spill words that the maps need."""
        if self.kind == "segments":
            return 0, sum((runs(module.map) + 63) // 64 for module in self.modules), 0
        upper = leaf = spill = 0
        for module in self.modules:
            upper += 1 + sum(not is_even(module.map, at, REGION) for at in range(0, self.words, REGION))
            for page in range(0, self.words, PAGE):
                if not is_even(module.map, page, PAGE):
                    leaf += 1
                    lines = range(page, min(page + PAGE, self.words), LINE)
                    spill += sum(runs(padded(module.map, at, LINE)) > 4 for at in lines)
        return upper, leaf, spill if self.kind == "packed" else 0


def runs(cells):
    """How many runs of equal cells there are."""
    return 1 + sum(cells[at] != cells[at - 1] for at in range(1, len(cells)))


def padded(cells, at, count):
    """A block of cells; those outside RAM are none."""
    block = cells[at : at + count]
    return block + bytes(count - len(block))


def is_even(cells, at, count):
    """Whether each eighth of a block has one permission."""
    block, part = padded(cells, at, count), count // 8
    return all(block.count(block[i], i, i + part) == part for i in range(0, count, part))


class Image:
    """A module's entry, its symbols, its segments as (address, bytes, size in memory, permission), and its input."""

    def __init__(self, table, read):
        self.symbols = {}
        self.input = read(table["input"]) if "input" in table else b""
        if "image" in table:
            self.read_elf(read(table["image"]), table.get("wx"))
            return
        words = b"".join(struct.pack("<I", word) for word in table["words"])
        perm = {"r": READ, "rw": WRITE, "rx": EXECUTE}[table["perm"]]
        self.entry, self.segments = table["at"], [(table["at"], words, len(words), perm)]

    def read_elf(self, data, both):
        self.entry, headers, sections = struct.unpack_from("<III", data, 24)
        self.segments = []
        for number in range(struct.unpack_from("<H", data, 44)[0]):
            kind, offset, address, _, size, memory, flags, _ = struct.unpack_from("<8I", data, headers + 32 * number)
            if kind == 1 and memory:
                perm = self.perm_of(flags, both)
                self.segments.append((address, data[offset : offset + size], memory, perm))
        count = struct.unpack_from("<H", data, 48)[0] if sections else 0
        tables = [struct.unpack_from("<10I", data, sections + 40 * number) for number in range(count)]
        symbols = next((table for table in tables if table[1] == 2), None)
        if symbols is None:
            return
        names = data[tables[symbols[6]][4] :]
        for at in range(symbols[4], symbols[4] + symbols[5], 16):
            name, value = struct.unpack_from("<II", data, at)
            if struct.unpack_from("<H", data, at + 14)[0]:
                self.symbols.setdefault(names[name : names.index(0, name)].decode(), value)

    @staticmethod
    def perm_of(flags, both):
        if flags & 3 == 3:
            return {"rw": WRITE, "rx": EXECUTE}[both]
        return WRITE if flags & 2 else EXECUTE if flags & 1 else READ if flags & 4 else NONE
