"""Random programs. Each is made as the model runs it: where RIP comes to a place without an instruction, one is chosen
that fits the state, so that programs run long; a few that don't fit end it in a fault."""
import random

from cases import Case, UD2, flags, regions
from instructions import MASK, RAX, RBX, RSP, at, do, encode, idle_bits, load_number
from model import FIRST_REGION, SHADOW, STACK_TOP, TEXT, Fault, Machine

BLOCK = 96
ROOM = 24
SIZES = (4096, 4096, 4096, 8192, 8, 24, 64, 2048, 4088, 12288)
SCRATCH = [register for register in range(16) if register != RSP]
STACK_PART = 0x3000


class Sequence:
    def __init__(self, seed, length, fault, plain):
        self.pick = random.Random(seed)
        self.length, self.fault, self.plain = length, fault, plain
        sizes = [] if plain else [self.pick.choice(SIZES) for _ in range(self.pick.randrange(1, 5))]
        self.before, self.tokens = regions(*sizes)
        self.before = self.before + flags(self.pick.randrange(100))
        self.case = Case(f"random {seed}", (), self.before, auxiliary=self.pick.random() < 0.5)
        self.machine = self.case.start.copy(bochs=False)
        self.text = bytearray(self.case.text)
        self.text[self.machine.rip - TEXT:] = b""
        self.instructions = {where: item for where, item in self.case.instructions.items() if where < self.machine.rip}
        self.machine.instructions = self.instructions
        self.machine.text = bytes(4096 * 12)
        self.free = [self.machine.rip + k for k in range(0, 4096 * 11, BLOCK)]
        self.block_end = self.free.pop(0) + BLOCK
        self.waiting, self.stack_tops = [], {}

    def make(self):
        """The case, with the text that its run has asked for."""
        machine, steps = self.machine, 0
        while steps < 2 * self.length:
            if machine.rip not in self.instructions and TEXT <= machine.rip < TEXT + len(machine.text):
                if steps >= self.length and not self.waiting:
                    self.waiting = self.last_words()
                self.place_next()
            steps += 1
            try:
                machine.step()
            except Fault:
                break
        case = self.case
        case.text, case.instructions = bytes(self.text), self.instructions
        case.start.text, case.start.instructions = case.text, case.instructions
        case.limit = steps
        return case

    def place_next(self):
        """Puts an instruction at RIP; near the end of its block a jump to another one."""
        rip = self.machine.rip
        end = rip + BLOCK - (rip - self.before_end()) % BLOCK
        item = self.waiting.pop(0) if self.waiting else self.choose()
        if self.pick.random() < 0.2:
            item = item._replace(rex=self.pick.getrandbits(7) & idle_bits(item))
        relative = item.number == "block" or isinstance(item.number, tuple)
        size = 5 if relative else len(encode(item))
        if rip + size + ROOM > end and item.name != "ud2":
            self.waiting.insert(0, item)
            item = do("jmp", number="block")
        if item.number == "block" and not self.free:
            item = UD2
        elif item.number == "block":
            item = item._replace(number=self.free.pop(0) - rip - 5)
        elif relative:
            item = item._replace(number=item.number[1] - rip - 5)
        self.put(rip, item)

    def before_end(self):
        return self.case.start.rip

    def put(self, rip, item):
        code = encode(item)
        place = rip - TEXT
        if len(self.text) < place + len(code):
            missing = place + len(code) - len(self.text)
            self.text.extend((b"\x0f\x0b" * missing)[:missing])
        self.text[place:place + len(code)] = code
        self.instructions[rip] = item

    # Choices

    def choose(self):
        machine, pick = self.machine, self.pick
        data, shadow = machine.word(machine.registers[RSP]), machine.word(machine.ssp)
        matched = data == shadow and data in range(TEXT, TEXT + 4096 * 12)
        inside = any(start <= machine.ssp < end for start, end in machine.regions)
        register = pick.choice(SCRATCH)
        if not self.free:
            return UD2
        chance = pick.random()
        if chance < 0.26:
            return self.call(register)
        if chance < 0.46:
            return self.back(matched, register)
        if chance < 0.52:
            return do(pick.choice(("stc", "clc", "nop")))
        if chance < 0.68 or self.plain:
            return self.move(register)
        if chance < 0.75 and inside:
            return self.raise_some(register)
        if chance < 0.95 and self.tokens:
            return self.switch(register)
        return do("rdsspq", pick.choice(SCRATCH))

    def queue(self, first, *rest):
        self.waiting += rest
        return first

    def call(self, register):
        machine, pick = self.machine, self.pick
        start = next((start for start, end in machine.regions if start <= machine.ssp - 8 < end), None)
        if start is None or machine.registers[RSP] < STACK_TOP - 4 * STACK_PART - 0x2000:
            return do("nop")
        kind = pick.random()
        if kind < 0.12:
            return self.queue(do("call", number=0), do("pop", register))
        if kind < 0.25:
            return self.queue(load_number(register, self.free.pop(0)), do("call_register", register))
        if kind < 0.38:
            return self.queue(load_number(register, self.free.pop(0)), do("push_register", register),
                              do("call_memory", memory=at(RSP)))
        old = [place for place in self.instructions if place >= self.before_end()]
        if kind < 0.39 and old:
            return do("call", number=("to", pick.choice(old)))
        return do("call", number="block")

    def back(self, matched, register):
        machine, pick = self.machine, self.pick
        if matched:
            above = machine.registers[RSP] + 8
            wanted = machine.word(machine.ssp + 8)
            gaps = [gap for gap in range(0, 40, 8) if machine.word(above + gap) == wanted]
            gap = gaps[0] if gaps else 0
            return do("ret_number", number=gap) if gap or pick.random() < 0.2 else do("ret")
        if machine.registers[RSP] < STACK_TOP and pick.random() < 0.9:
            return do("pop", register)
        return do("nop")

    def raise_some(self, register):
        machine, pick = self.machine, self.pick
        end = next(end for start, end in machine.regions if start <= machine.ssp < end)
        most = (end - machine.ssp) // 8
        count = pick.choice((0, 1, 1, 2, 3, pick.randrange(256)))
        count = min(count, most)
        value = count | pick.choice((0, 256, pick.getrandbits(56) << 8))
        drops = [do("pop", pick.choice(SCRATCH)) for _ in range(min(count, 2))]
        return self.queue(load_number(register, value), do("incsspq", register), *drops)

    def found_tokens(self):
        machine = self.machine
        return [place for place, word in machine.words.items() if word == place + 8 | 1 and place >= SHADOW]

    def switch(self, register):
        """A change of stacks, mostly with its save, sometimes with a change of the program stack."""
        machine, pick = self.machine, self.pick
        places = self.found_tokens()
        if not places:
            return do("rdsspq", register)
        place = pick.choice(places)
        displacement = pick.choice((0, 8, -8, 0x100, -0x1000))
        items = [do("rstorssp", memory=at(register, displacement))]
        if pick.random() < 0.3:
            items.append(do("mov_load", pick.choice(SCRATCH), at(register, displacement)))
            items.append(do("rdsspq", pick.choice(SCRATCH)))
        if pick.random() < 0.85:
            items += [do("clc"), do("saveprevssp")] if pick.random() < 0.2 else [do("saveprevssp")]
        if pick.random() < 0.5:
            here = self.part(machine.ssp)
            there = self.part(place)
            self.stack_tops[here] = machine.registers[RSP]
            items.append(load_number(RSP, self.stack_tops.get(there, STACK_TOP - there * STACK_PART)))
        return self.queue(load_number(register, place - displacement), *items)

    def part(self, ssp):
        """The number of the region that SSP is in or at the end of."""
        for number, (start, end) in enumerate(self.machine.regions):
            if start <= ssp <= end:
                return number
        return 0

    def move(self, register):
        machine, pick = self.machine, self.pick
        top = machine.registers[RSP] & ~7
        kind = pick.randrange(7)
        if kind == 0:
            return load_number(register, pick.getrandbits(pick.choice((8, 31, 32, 63, 64))))
        if kind == 1:
            return do("push_register", pick.choice(SCRATCH + [RSP]))
        if kind == 2:
            return do("push_number", number=pick.randrange(-1 << 31, 1 << 31) >> pick.choice((0, 24)))
        if kind == 3:
            return do("mov_store", register, at(RSP, -8 * pick.randrange(1, 40)))
        if kind == 4:
            return do("mov_load", register, at(RSP, 8 * pick.randrange(0, min(8, max(1, (STACK_TOP - top) // 8)))))
        if kind == 5 and not self.plain and any(start <= machine.ssp < end for start, end in machine.regions):
            return self.queue(do("rdsspq", register), do("mov_load", pick.choice(SCRATCH), at(register)))
        return do("pop", register) if top < STACK_TOP and machine.word(top) != machine.word(machine.ssp) else do("nop")

    def last_words(self):
        """UD2, or one of the ways to a fault."""
        machine, pick = self.machine, self.pick
        if not self.fault:
            return [UD2]
        token = pick.choice(self.found_tokens() or [FIRST_REGION[1] - 8])
        there = pick.choice((token, token + 8, token - 8, token + 4, machine.ssp, machine.ssp - 8, FIRST_REGION[0] - 8,
                             SHADOW + 0x9000, STACK_TOP, self.before_end(), 1 << 47, 0))
        ways = [
            [do("push_number", number=7), do("ret")], [do("ret")],
            [load_number(RSP, there & MASK), do("ret")], [load_number(RSP, there & MASK), do("call", number=1), UD2],
            [load_number(RBX, there & MASK), do("call_register", RBX)],
            [load_number(RBX, there & MASK), do("mov_store", RBX, at(RBX))],
        ]
        if not self.plain:
            ways += [
                [do("stc"), do("saveprevssp")], [do("saveprevssp"), do("saveprevssp")],
                [load_number(RBX, there & MASK), do("rstorssp", memory=at(RBX)), do("saveprevssp")],
                [load_number(RAX, pick.randrange(256)), do("incsspq", RAX), do("incsspq", RAX), do("incsspq", RAX)],
            ]
        return pick.choice(ways) + [UD2]


def sequences(seed, count, length):
    """Half of them end in a fault on purpose, and half have none of the instructions for shadow stacks alone."""
    for number in range(count):
        yield Sequence(f"{seed}.{number}", length, number % 2 == 1, number % 4 >= 2).make()
