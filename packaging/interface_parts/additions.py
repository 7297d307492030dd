"""Writes into the headers what the crates have and they lack, at its place in the order of the crates. What stands in the headers stays as
it is: where it differs from the crates, agreement.py names it."""
from __future__ import annotations

import re
from typing import Dict, Iterator, List, Optional, Sequence, Union

from . import declarations, layout
from .header import NAMES, PATH, declared
from .model import Call, Constant, Group, Interface, Rows, Struct, Unknown

# The block that ends the declarations.
END = '#include "ndef_names.h"'
ENUM = re.compile(r'^enum \w* ?\{.*?\};', re.M | re.S)
MEMBER = re.compile(r'\b(NDEF_\w+) = (\d+)')


def declaring(name: str) -> str:
    """What declares a call, a struct or the enum of a constant."""
    return rf'^(?:uint32_t|void) {name}\(|^typedef struct {name} \{{|^enum \w* ?\{{[^}}]*\b{name} = '


def block_of(blocks: Sequence[str], name: str) -> Optional[int]:
    """The number of the block that declares a thing; None where none does."""
    return next((at for at, block in enumerate(blocks) if re.search(declaring(name), block, re.M)), None)


def known(blocks: Sequence[str], names: Iterator[str]) -> List[int]:
    return [at for at in (block_of(blocks, name) for name in names) if at is not None]


def taken(one: Union[Call, Struct]) -> Iterator[str]:
    """The structs that have to be declared before a call or a struct."""
    types = [part.type for part in one.parameters] if isinstance(one, Call) else [field.type for field in one.fields]
    names = (kind.removeprefix('const ').removesuffix(' *') for kind in types)
    return (name for name in names if name not in layout.SIZES)


def put(blocks: List[str], one: Union[Call, Struct], interface: Interface) -> None:
    """Puts the block of a call or a struct after what stands before it in its file, or else before what follows it there; and in any case
    after the structs that it takes. The first of a new file goes to the end, with the subject of the file before it."""
    order = interface.files[one.where]
    own = order.index(one.name)
    before, after = known(blocks, iter(order[:own])), known(blocks, iter(order[own + 1:]))
    end = next(at for at, block in enumerate(blocks) if block.startswith(END))
    at = max(before) + 1 if before else min(after) if after else end
    made = [declarations.call(one, interface) if isinstance(one, Call) else declarations.struct(one, interface)]
    if not before and not after:
        made.insert(0, declarations.heading(interface.heads[one.where]))
    at = max([at, *(struct + 1 for struct in known(blocks, taken(one)))])
    blocks[at:at] = made


def put_declarations(blocks: List[str], lacking: Sequence[Union[Call, Struct]], interface: Interface) -> None:
    """Puts calls and structs, in this order, but each after the structs that it takes."""
    waiting = list(lacking)
    while waiting:
        ready = [one for one in waiting if all(block_of(blocks, name) is not None for name in taken(one))]
        if not ready:
            raise Unknown(f'{waiting[0].where}: {waiting[0].name} takes a struct that the header cannot declare before it')
        put(blocks, ready[0], interface)
        waiting.remove(ready[0])


def put_group(blocks: List[str], group: Group, interface: Interface) -> None:
    """Puts an enum: that of flags right after what they belong to, and any other after the enum before it."""
    made = declarations.enum(group, interface)
    if group.beside:
        at = block_of(blocks, group.beside)
        if at is None:
            raise Unknown(f'{group.where}: {group.constants[0].name} stands beside {group.beside}, which is not there')
        blocks[at] += '\n' + made
        return
    groups = interface.groups[:interface.groups.index(group)]
    blocks.insert(max(known(blocks, (one.constants[0].name for one in groups))) + 1, made)


def with_constant(enum: str, given: Constant, interface: Interface) -> str:
    """An enum with one more constant, after those with lower numbers; it has an aside where others have."""
    found = list(MEMBER.finditer(enum))
    lower = [one for one in found if int(one[2]) < given.number]
    if not lower:
        raise Unknown(f'{PATH}: no constant stands before {given.name}')
    end = lower[-1].end()
    is_last = lower[-1] is found[-1]
    if '\n' not in enum:
        return f'{enum[:end]}, {given.name} = {given.number}{enum[end:]}'
    if is_last:
        enum = enum[:end] + ',' + enum[end:].replace('  ', ' ', 1)
    line_end = enum.index('\n', end)
    line = enum[enum.rindex('\n', 0, end) + 1:line_end]
    made = declarations.constant(given, '' if is_last else ',', max(line.find('/*') - 1, 0), interface)
    return f'{enum[:line_end]}\n{made}{enum[line_end:]}'


def put_constants(files: Dict[str, List[str]], group: Group, lacking: Sequence[Constant], interface: Interface) -> None:
    """Puts constants into the enum of their group, which either header has, or this enum with all of them into the first."""
    if len(lacking) == len(group.constants):
        put_group(files[PATH], group, interface)
        return
    there = next(one.name for one in group.constants if one not in lacking)
    blocks, at = next((blocks, at) for blocks in files.values() for at in known(blocks, iter([there])))
    for one in lacking:
        blocks[at] = ENUM.sub(lambda enum: with_constant(enum[0], one, interface) if there in enum[0] else enum[0], blocks[at])


def with_rows(text: str, name: str, given: Rows, wanted: Rows) -> str:
    """A header whose list of this name has the rows that it lacks. One that has another text stays as it is."""
    has = {row for _, row, _ in given}
    lacking = [row for row in wanted if row[1] not in has]
    if not lacking:
        return text
    made = declarations.rows(name, sorted(given + lacking))
    return re.sub(rf'^#define {name}\(X\) (?:.*\\\n)*.*$', lambda _: made, text, flags=re.M)


def completed(texts: Dict[str, str], crates: Interface) -> Dict[str, str]:
    """The headers, with all that the crates have."""
    header = declared(texts)
    files, constants = {path: text.split('\n\n') for path, text in texts.items()}, header.constants()
    order = [name for names in crates.files.values() for name in names]
    things: Dict[str, Union[Call, Struct]] = {**crates.calls, **crates.structs}
    put_declarations(files[PATH], [things[name] for name in order if name not in header.calls and name not in header.structs], crates)
    for group in crates.groups:
        lacking = [one for one in group.constants if one.name not in constants]
        if lacking:
            put_constants(files, group, lacking, crates)
    made = {path: '\n\n'.join(blocks) for path, blocks in files.items()}
    for name, rows in crates.lists.items():
        made[NAMES] = with_rows(made[NAMES], name, header.lists.get(name, []), rows)
    return made
