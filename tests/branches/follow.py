"""Follows what is computed from one argument through a function, along every path."""
from listing import LOWEST, NARROW, NotKnown, is_memory, is_whole, registers

# What the flags may hold: nothing that comes from the argument, something that does, or a comparison of the argument
# itself with a constant, which is held as that number.
CLEAN, FOLLOWS = 'clean', 'follows'

MOVES = {'mov', 'movb', 'movw', 'movl', 'movq', 'movabs', 'movzbl', 'movzwl', 'movslq', 'movsbl', 'movswl', 'lea'}
TESTS = {'cmp', 'cmpb', 'cmpw', 'cmpl', 'cmpq', 'test', 'testb', 'testw', 'testl', 'testq'}
# These set every flag that a condition asks for; those after them leave some as they were.
SETTING = {'add', 'sub', 'and', 'or', 'xor', 'neg', 'adc', 'sbb'}
PARTLY = {'imul', 'shl', 'shr', 'sar', 'inc', 'dec', 'not', 'bt', 'bts', 'btr', 'btc', 'bsr', 'bsf'}
CONDITIONS = ['o', 'no', 'b', 'ae', 'e', 'ne', 'be', 'a', 's', 'ns', 'p', 'np', 'l', 'ge', 'le', 'g']
JUMPS = {'j' + condition for condition in CONDITIONS}
CHOICES = {kind + condition for kind in ('set', 'cmov') for condition in CONDITIONS}
# What is done by the flags.
ASKING = JUMPS | CHOICES | {'adc', 'sbb'}
MEMORY = 'memory'
# What the flags hold after a test of a byte that is known to be 0.
ZERO = 'zero'
ON_ZERO = {'je': True, 'jne': False}


class State:
    """What comes from the argument: registers and memory, the flags, and which registers hold the argument itself. The
    argument is a register, or the place on the stack where the caller left it. `low` has the registers whose lowest
    byte is 0, whatever the argument is."""

    def __init__(self, follows, itself, flags, low=()):
        self.follows, self.itself, self.flags = frozenset(follows), frozenset(itself), flags
        self.low = frozenset(low)

    def key(self):
        return self.follows, self.itself, self.flags, self.low

    def joined(self, other):
        same = self.flags == other.flags
        return State(self.follows | other.follows, self.itself & other.itself, self.flags if same else FOLLOWS,
                     self.low & other.low)

    def holds(self, operand):
        """Whether an operand is the argument itself, with all its bits."""
        return operand in self.itself or (is_whole(operand) and registers(operand) <= self.itself)


def follows(state, operand):
    """Whether what an operand holds, or where it lies, comes from the argument."""
    return operand in state.follows or bool(registers(operand) & state.follows) \
        or (is_memory(operand) and MEMORY in state.follows)


def written(state, operand, comes, keeps, itself=False):
    """The state after a write to an operand; one to a part of a register keeps what the rest comes from."""
    if is_memory(operand):
        return State(state.follows | {MEMORY} if comes else state.follows, state.itself, state.flags, state.low)
    whole = registers(operand)
    if 'rsp' in whole:
        raise NotKnown(f'the stack pointer is moved: {operand}')
    keeps = keeps or operand[1:] in NARROW
    came = state.follows | whole if comes else state.follows if keeps else state.follows - whole
    return State(came, state.itself | whole if itself else state.itself - whole, state.flags, state.low - whole)


def compared(state, one):
    """What the flags hold after a comparison."""
    first, second = one.operands
    plain = state.holds(second)
    if plain and one.name == 'test' and first == second:
        return 0
    if plain and one.name in ('cmp', 'cmpq') and first.startswith('$'):
        return int(first[1:], 0)
    if one.name == 'test' and first == second and second[1:] in LOWEST and registers(second) <= state.low:
        return ZERO
    return FOLLOWS if follows(state, first) or follows(state, second) else CLEAN


def changed(state, one):
    """The state after an instruction that changes its last operand by all of them."""
    if len(one.operands) == 1 and one.name == 'imul' or one.name.startswith('bt') and is_memory(one.operands[-1]):
        raise NotKnown(one.text)
    cleared = one.name == 'xor' and len(set(one.operands)) == 1
    comes = not cleared and any(follows(state, operand) for operand in one.operands)
    comes = comes or (one.name in ASKING and state.flags != CLEAN)
    flags = FOLLOWS if comes or (one.name in PARTLY and state.flags != CLEAN) else CLEAN
    result = state if one.name == 'bt' else written(state, one.operands[-1], comes, not cleared)
    shifted = one.name == 'shl' and len(one.operands) == 2 and one.operands[0].startswith('$')
    empties = shifted and 8 <= int(one.operands[0][1:], 0) < 32 and one.operands[1][1:] not in NARROW
    low = result.low | registers(one.operands[1]) if empties and not is_memory(one.operands[1]) else result.low
    return State(result.follows, result.itself, flags, low)


def after(state, one):
    """The state after an instruction that is no jump."""
    if one.relocated and not any('(%rip)' in operand for operand in one.operands):
        raise NotKnown(one.text)
    if one.name in TESTS:
        return State(state.follows, state.itself, compared(state, one), state.low)
    if one.name in CHOICES:
        comes = state.flags != CLEAN or any(follows(state, operand) for operand in one.operands)
        return written(state, one.operands[-1], comes, True)
    if one.name in MOVES:
        source, to = one.operands
        copies = one.name == 'mov' and is_whole(to) and state.holds(source)
        return written(state, to, follows(state, source), False, copies)
    if one.name in SETTING | PARTLY:
        return changed(state, one)
    raise NotKnown(one.text)


def targets(one, place, addresses):
    """Where a jump leads, as places in the list of instructions."""
    if one.relocated or one.operands[0].startswith('*') or int(one.operands[0], 16) not in addresses:
        raise NotKnown(one.text)
    return [addresses[int(one.operands[0], 16)]] + ([place + 1] if one.name in JUMPS else [])


def ways(one, state, place, addresses, left_out):
    """The places where a jump can lead: all of its own, but for those that the flags or `left_out` rule out."""
    both = targets(one, place, addresses)
    taken = ON_ZERO.get(one.name) if state.flags == ZERO else None
    if (state.flags, one.name) in left_out:
        taken = not left_out[state.flags, one.name]
    return both if taken is None or len(both) == 1 else both[:1] if taken else both[1:]


def states(code, argument, left_out):
    """The state before each instruction that can be reached, in the order of the code. `left_out` has comparisons of
    the argument, each with the condition of its jump: where it is true, the way that is taken is not followed, else the
    way that goes on."""
    addresses = {one.address: place for place, one in enumerate(code)}
    before = {0: State({argument}, {argument}, CLEAN)}
    work = [0]
    while work:
        place = work.pop()
        if place == len(code):
            raise NotKnown('the end of the function is passed')
        one, state = code[place], before[place]
        if one.name == 'ret':
            continue
        jumps = one.name == 'jmp' or one.name in JUMPS
        next_state = state if jumps else after(state, one)
        for to in ways(one, state, place, addresses, left_out) if jumps else [place + 1]:
            joined = before[to].joined(next_state) if to in before else next_state
            if to not in before or joined.key() != before[to].key():
                before[to] = joined
                work.append(to)
    return [(code[place], before[place]) for place in sorted(before)]
