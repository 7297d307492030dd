"""Where the members of structs lie, by the rules of C; and the test of it in C."""
from __future__ import annotations

import dataclasses
from typing import Dict, List, Tuple

from .model import MARK, Interface, Struct, Unknown

# The machines whose layouts could differ. The interface has no pointer in a struct, and ndef_size has 64 bits aligned to 8
# bytes everywhere: so only the alignment of uint64_t matters, which is 4 in the ABI of System V for the i386 alone.
MACHINES = ('64', '32', 'i386')
SIZES = {'uint8_t': 1, 'uint32_t': 4, 'uint64_t': 8, 'ndef_size': 8}


@dataclasses.dataclass(frozen=True)
class Layout:
    size: int
    alignment: int
    offsets: Tuple[int, ...]


def of(struct: Struct, structs: Dict[str, Struct], machine: str) -> Layout:
    """The layout of a struct: each member at the next place that its alignment allows."""
    end, most, offsets = 0, 1, []
    for field in struct.fields:
        if field.type in SIZES:
            size = SIZES[field.type]
            alignment = 4 if machine == 'i386' and field.type == 'uint64_t' else size
        else:
            inner = of(structs[field.type], structs, machine)
            size, alignment = inner.size, inner.alignment
        end = -(-end // alignment) * alignment
        offsets.append(end)
        end += size * max(field.count, 1)
        most = max(most, alignment)
    return Layout(-(-end // most) * most, most, tuple(offsets))


def all_of(struct: Struct, structs: Dict[str, Struct]) -> Dict[str, Layout]:
    """The layouts of all machines. The members lie at the same places: a struct where they do not would need more words for each face."""
    made = {machine: of(struct, structs, machine) for machine in MACHINES}
    if len({layout.offsets for layout in made.values()}) != 1:
        raise Unknown(f'{struct.name}: its members lie at other places on other machines')
    sizes = {layout.size for layout in made.values()}
    if len(sizes) != 1:
        raise Unknown(f'{struct.name} has {max(sizes)} bytes, and {min(sizes)} on the i386: the library would write beyond its end there')
    return made


HEAD = f'''/* {MARK[0].upper()}{MARK[1:]}.
 * Where the members of the structs of ndef.h lie: a compiler that lays them out in another way refuses this file. */
#include "ndef.h"

/* The alignment of a member of this type. */
#define ALIGNED(type) offsetof(struct {{ char first; type second; }}, second)
/* Whether uint64_t is aligned to 4 bytes in a struct, as on the i386 of System V; elsewhere it is to 8. */
enum {{ NARROW = ALIGNED(uint64_t) == 4 }};

#define SIZE(type, size, narrow) _Static_assert(sizeof(type) == (NARROW ? narrow : size), "the size of " #type)
#define AT(type, member, kind, offset) \\
    _Static_assert(offsetof(type, member) == offset && sizeof(((type *)0)->member) == sizeof(kind), #type ", " #member)

_Static_assert(sizeof(ndef_size) == 8 && ALIGNED(ndef_size) == 8, "ndef_size has 64 bits, aligned to 8 bytes");
'''


def test(interface: Interface) -> str:
    """The C file that asserts all layouts, for machines of 64 and of 32 bits."""
    lines: List[str] = [HEAD]
    for struct in interface.structs.values():
        layouts = all_of(struct, interface.structs)
        lines.append(f'SIZE({struct.name}, {layouts["64"].size}, {layouts["i386"].size});')
        for field, offset in zip(struct.fields, layouts['64'].offsets):
            kind = field.type + (f'[{field.count}]' if field.count else '')
            lines.append(f'AT({struct.name}, {field.name}, {kind}, {offset});')
        lines.append('')
    lines.append('\n'.join(f'_Static_assert({name} == {number}, "{name}");' for name, number in interface.constants().items()))
    return '\n'.join(lines) + '\n'
