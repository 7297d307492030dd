"""What a machine of 32 bits would lose. A pointer of C has 32 bits there, so of a number of 64 bits that is made a pointer only the lower half stays.
An address has no more. But clang may carry 8 octets of a text as a pointer, if another variant of the same type has one there. So a number that was
made a pointer may lead to memory, or be passed on, as a pointer that the source has. It is never made a number again, stored or compared."""


def handed_on(line):
    """The operands of which the result may be one."""
    a = line.args
    if line.op == 'phi':
        return list(a[1].values())
    if line.op == 'insertvalue':
        return [a[1], a[2][1]]
    return {'select': a[2:], 'freeze': a[1:], 'extractvalue': a[1:2]}.get(line.op, [])


def read_as_numbers(line):
    """The operands whose every bit counts."""
    return {'ptrtoint': line.args[1:2], 'ptrtoaddr': line.args[1:2], 'icmp': line.args[2:], 'store': line.args[1:2]}.get(line.op, [])


def lost_half(function):
    """What takes a number of 64 bits back out of a pointer, or nothing."""
    lines = [line for block in function.blocks.values() for line in block]
    pointers, before = {line.result for line in lines if line.op == 'inttoptr'}, None

    def has_one(values):
        return any(value[0] == '%' and value[1] in pointers for value in values)
    while pointers != before:
        before = set(pointers)
        pointers |= {line.result for line in lines if has_one(handed_on(line))}
    return next((f'a machine of 32 bits loses half of {line.text}' for line in lines if has_one(read_as_numbers(line))), '')
