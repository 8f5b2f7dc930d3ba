"""Instructions: for each a generator that yields its accesses, gets their answers, and returns its record. It changes
the thread's registers only once it has made its last access."""
from listing import RAX, RBP, RCX, RSP, Memory, Number, Register, Unknown
from places import (LOAD, MASK, SHADOW_LOAD, SHADOW_STORE, STORE, Fault, canonical, check, page_of)

CF, PF, ZF, SF, OF = 1, 4, 64, 128, 2048
STATUS = CF | PF | ZF | SF | OF
CONDITIONS = "o no b ae e ne be a s ns p np l ge le g".split()


# Parts

def look(address, kind):
    """The look at an address's page. An address in no range costs no access."""
    page = page_of(address)
    entry = 0 if page is None else (yield ("look", page))
    check(entry, kind, address)


def test(address, size=8):
    if not canonical(address):
        raise Fault("#GP")
    if address % size:
        raise Fault("#AC", 0, address)


def load(address, size=8):
    test(address, size)
    yield from look(address, LOAD)
    word = yield ("load", address & ~7)
    return word >> 8 * (address & 7) & (1 << 8 * size) - 1


def address_of(thread, memory, after):
    base = after if memory.base == "rip" else thread.registers[memory.base] if memory.base is not None else 0
    index = thread.registers[memory.index] if memory.index is not None else 0
    return base + index * memory.scale + memory.displacement & MASK


def value_of(thread, operand, after, size=8):
    if isinstance(operand, Number):
        return operand.value & (1 << 8 * size) - 1
    if isinstance(operand, Register):
        return thread.registers[operand.number] & (1 << 8 * size) - 1
    return (yield from load(address_of(thread, operand, after), size))


# Flags

def of_result(result, size):
    """ZF, SF and PF."""
    even = bin(result & 255).count("1") % 2 == 0
    return (ZF if result == 0 else 0) | (SF if result >> 8 * size - 1 else 0) | (PF if even else 0)


def signed(value, size):
    return value - (1 << 8 * size) if value >> 8 * size - 1 else value


def arithmetic(total, true, size):
    """Result and flags of a sum or a difference, by its numbers without and with sign."""
    result = total & (1 << 8 * size) - 1
    flags = of_result(result, size) | (CF if total != result else 0) | (OF if signed(result, size) != true else 0)
    return result, flags


def add(left, right, size, carry=0):
    return arithmetic(left + right + carry, signed(left, size) + signed(right, size) + carry, size)


def subtract(left, right, size, borrow=0):
    return arithmetic(left - right - borrow, signed(left, size) - signed(right, size) - borrow, size)


def operate(name, left, right, size, carry):
    """Result and flags of one of the eight operations or `test`."""
    if name in ("add", "adc"):
        return add(left, right, size, carry if name == "adc" else 0)
    if name in ("sub", "sbb", "cmp"):
        return subtract(left, right, size, carry if name == "sbb" else 0)
    result = left | right if name == "or" else left ^ right if name == "xor" else left & right
    return result, of_result(result, size)


def holds(condition, flags):
    number = CONDITIONS.index(condition)
    carry, zero, sign = bool(flags & CF), bool(flags & ZF), bool(flags & SF)
    overflow, parity = bool(flags & OF), bool(flags & PF)
    tests = (overflow, carry, zero, carry or zero, sign, parity, sign != overflow, zero or sign != overflow)
    return tests[number // 2] != bool(number % 2)


# Moves and arithmetic

def step(thread, value, after, flags=None):
    if flags is not None:
        thread.flags = flags | 2
    thread.rip = after
    return "step", 0, value, thread.flags


def put(thread, register, value, after, flags=None):
    thread.registers[register.number] = value
    return step(thread, value, after, flags)


def size_of(instruction):
    """8 or 4, by the register operand, else by the word before the memory."""
    sizes = [one.size for one in instruction.operands if isinstance(one, Register) and one.size > 1]
    sizes += [one.size for one in instruction.operands if isinstance(one, Memory) and one.size]
    return sizes[0] if sizes else 8


def alu(thread, instruction, after):
    left, right = instruction.operands
    size = size_of(instruction)
    first = yield from value_of(thread, left, after, size)
    second = yield from value_of(thread, right, after, size)
    result, flags = operate(instruction.name, first, second, size, thread.flags & CF)
    if instruction.name in ("cmp", "test"):
        return step(thread, 0, after, flags)
    return put(thread, left, result, after, flags)


def store(thread, memory, value, after):
    address = address_of(thread, memory, after)
    test(address)
    yield from look(address, STORE)
    yield ("store", address, value)
    return step(thread, value, after)


def mov(thread, instruction, after):
    left, right = instruction.operands
    value = yield from value_of(thread, right, after, size_of(instruction))
    if isinstance(left, Memory):
        return (yield from store(thread, left, value, after))
    return put(thread, left, value, after)


def movzx(thread, instruction, after):
    left, right = instruction.operands
    return put(thread, left, (yield from value_of(thread, right, after, 1)), after)


def movsxd(thread, instruction, after):
    left, right = instruction.operands
    return put(thread, left, signed((yield from value_of(thread, right, after, 4)), 4) & MASK, after)


def lea(thread, instruction, after):
    left, right = instruction.operands
    return put(thread, left, address_of(thread, right, after) & (1 << 8 * left.size) - 1, after)
    yield


def xchg(thread, instruction, after):
    left, right = instruction.operands
    old = thread.registers[right.number]
    if isinstance(left, Register):
        thread.registers[right.number] = thread.registers[left.number]
        return put(thread, left, old, after)
    address = address_of(thread, left, after)
    test(address)
    yield from look(address, STORE)
    return put(thread, right, (yield ("swap", address, old)), after)


def lock_xadd(thread, instruction, after):
    memory, register = instruction.operands
    address, value = address_of(thread, memory, after), thread.registers[register.number]
    test(address)
    yield from look(address, STORE)
    word = yield ("add", address, value)
    return put(thread, register, word, after, add(word, value, 8)[1])


def lock_cmpxchg(thread, instruction, after):
    memory, register = instruction.operands
    address, wanted = address_of(thread, memory, after), thread.registers[RAX]
    test(address)
    yield from look(address, STORE)
    word = yield ("exchange", address, wanted, thread.registers[register.number])
    thread.registers[RAX] = word
    return step(thread, word, after, subtract(wanted, word, 8)[1])


def one_operand(thread, instruction, after):
    """inc, dec, not, neg."""
    register, = instruction.operands
    size, kept = register.size, thread.flags & CF
    value = thread.registers[register.number] & (1 << 8 * size) - 1
    if instruction.name == "not":
        return put(thread, register, ~value & (1 << 8 * size) - 1, after)
    if instruction.name == "neg":
        return put(thread, register, *swapped(subtract(0, value, size), after))
    result, flags = (add if instruction.name == "inc" else subtract)(value, 1, size)
    return put(thread, register, result, after, flags & ~CF | kept)
    yield


def swapped(answer, after):
    result, flags = answer
    return result, after, flags


def imul(thread, instruction, after):
    left, right = instruction.operands
    first = yield from value_of(thread, left, after, left.size)
    second = yield from value_of(thread, right, after, left.size)
    product = signed(first, left.size) * signed(second, left.size)
    result = product & (1 << 8 * left.size) - 1
    return put(thread, left, result, after, 0 if signed(result, left.size) == product else CF | OF)


def shift(thread, instruction, after):
    register, right = instruction.operands
    bits = 8 * register.size
    count = (thread.registers[RCX] if isinstance(right, Register) else right.value) % bits
    value = thread.registers[register.number] & (1 << bits) - 1
    if count == 0:
        return put(thread, register, value, after)
    if instruction.name == "shl":
        result, carry = value << count & (1 << bits) - 1, value >> bits - count & 1
        over = result >> bits - 1 ^ carry
    else:
        full = signed(value, register.size) if instruction.name == "sar" else value
        result, carry = full >> count & (1 << bits) - 1, full >> count - 1 & 1
        over = value >> bits - 1 if instruction.name == "shr" else 0
    flags = of_result(result, register.size) | carry * CF | (over * OF if count == 1 else 0)
    return put(thread, register, result, after, flags)
    yield


def cmov(thread, instruction, after):
    left, right = instruction.operands
    value = yield from value_of(thread, right, after, left.size)
    if not holds(instruction.name[4:], thread.flags):
        value = thread.registers[left.number] & (1 << 8 * left.size) - 1
    return put(thread, left, value, after)


def nothing(thread, instruction, after):
    flags = {"stc": thread.flags | CF, "clc": thread.flags & ~CF}.get(instruction.name)
    return step(thread, 0, after, flags)
    yield


def fault(name):
    def faulting(thread, instruction, after):
        raise Fault(name)
        yield
    return faulting


# The stack, calls and jumps

def push(thread, instruction, after):
    value = yield from value_of(thread, instruction.operands[0], after)
    place = thread.registers[RSP] - 8 & MASK
    test(place)
    yield from look(place, STORE)
    yield ("store", place, value)
    thread.registers[RSP] = place
    return step(thread, value, after)


def pop(thread, instruction, after):
    place = thread.registers[RBP if instruction.name == "leave" else RSP]
    value = yield from load(place)
    thread.registers[RSP] = place + 8 & MASK
    thread.registers[instruction.operands[0].number if instruction.operands else RBP] = value
    return step(thread, value, after)


def call(thread, instruction, after):
    target = instruction.operands[0]
    relative = isinstance(target, Number)
    shadow = not relative or target.value != 0
    if relative:
        target = after + target.value & MASK
    else:
        target = yield from value_of(thread, target, after)
        if not canonical(target):
            raise Fault("#GP")
    place, entry = thread.registers[RSP] - 8 & MASK, thread.ssp - 8 & MASK
    test(place)
    yield from look(place, STORE)
    if shadow:
        yield from look(entry, SHADOW_STORE)
    yield ("store", place, after)
    if shadow:
        yield ("store", entry, after)
        thread.book.called(thread.number, after)
        thread.ssp = entry
    thread.registers[RSP], thread.rip = place, target
    return "call", 0, target, thread.ssp


def jump(thread, instruction, after):
    target = instruction.operands[0]
    if isinstance(target, Number):
        return step(thread, after + target.value & MASK, after + target.value & MASK)
    target = yield from value_of(thread, target, after)
    if not canonical(target):
        raise Fault("#GP")
    return step(thread, target, target)


def jump_if(thread, instruction, after):
    target = after + instruction.operands[0].value & MASK
    rip = target if holds(instruction.name[1:], thread.flags) else after
    return step(thread, rip, rip)
    yield


def ret(thread, instruction, after):
    place = thread.registers[RSP]
    test(place)
    yield from look(place, LOAD)
    yield from look(thread.ssp, SHADOW_LOAD)
    data = yield ("load", place)
    shadow = yield ("load", thread.ssp)
    if data != shadow:
        raise Fault("#CP", 1, data, shadow)
    if not canonical(data):
        raise Fault("#GP")
    code = thread.book.returned(thread.number, data)
    if not code and thread.program.executable(data):
        raise AssertionError(f"a return to code at {data:x} that no call opened")
    extra = instruction.operands[0].value if instruction.operands else 0
    thread.registers[RSP] = place + 8 + extra & MASK
    thread.ssp, thread.rip = thread.ssp + 8 & MASK, data
    return "ret", 0, data, thread.ssp


# Shadow stacks

def incsspq(thread, instruction, after):
    count = thread.registers[instruction.operands[0].number] & 255
    yield from look(thread.ssp, SHADOW_LOAD)
    yield from look(thread.ssp + 8 * (max(count, 1) - 1) & MASK, SHADOW_LOAD)
    thread.book.raised(thread.number, count)
    thread.ssp, thread.rip = thread.ssp + 8 * count & MASK, after
    return "raise", 0, thread.ssp, count


def rdsspq(thread, instruction, after):
    return put(thread, instruction.operands[0], thread.ssp, after)
    yield


def rstorssp(thread, instruction, after):
    place = address_of(thread, instruction.operands[0], after)
    if place % 8 or not canonical(place):
        raise Fault("#GP")
    yield from look(place, SHADOW_STORE)
    found = yield ("exchange", place, place + 8 & MASK | 1, thread.ssp | 3)
    if found != place + 8 & MASK | 1:
        raise Fault("#CP", 4, place, found)
    thread.book.acquired(thread.number, place)
    before, thread.ssp, thread.flags, thread.rip = thread.ssp, place, 2, after
    return "take", 0, place, before


def saveprevssp(thread, instruction, after):
    yield from look(thread.ssp, SHADOW_LOAD)
    word = yield ("load", thread.ssp)
    if thread.flags & CF or not word & 2:
        raise Fault("#GP")
    old = word & ~3
    place = (old & ~7) - 8 & MASK
    if not canonical(place):
        raise Fault("#GP")
    yield from look(place, SHADOW_STORE)
    yield ("store", place, old | 1)
    thread.book.released(thread.number)
    thread.ssp, thread.rip = thread.ssp + 8 & MASK, after
    return "save", 0, place, thread.ssp


TABLE = {name: alu for name in "add or adc sbb and sub xor cmp test".split()}
TABLE |= {name: one_operand for name in "inc dec not neg".split()} | {name: shift for name in "shl shr sar".split()}
TABLE |= {name: nothing for name in "nop pause endbr64 stc clc".split()}
TABLE |= {"cmov" + condition: cmov for condition in CONDITIONS} | {"j" + condition: jump_if for condition in CONDITIONS}
TABLE |= {
    "mov": mov, "movabs": mov, "movzx": movzx, "movsxd": movsxd, "lea": lea, "xchg": xchg, "lock xadd": lock_xadd,
    "lock cmpxchg": lock_cmpxchg, "imul": imul, "push": push, "pop": pop, "leave": pop, "call": call, "jmp": jump,
    "ret": ret, "ud2": fault("#UD"), "incsspq": incsspq, "rdsspq": rdsspq, "rstorssp": rstorssp,
    "saveprevssp": saveprevssp, "setssbsy": fault("#GP"), "clrssbsy": fault("#GP"), "wrussq": fault("#GP"),
    "wrssq": fault("#UD"),
}


def run(thread, instruction):
    """The record of an instruction other than SYSCALL."""
    if instruction.name not in TABLE:
        raise Unknown(f"the instruction {instruction.text}")
    return (yield from TABLE[instruction.name](thread, instruction, thread.rip + instruction.length & MASK))
