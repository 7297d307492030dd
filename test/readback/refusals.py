"""What ports/translate.py has no C for it refuses, and says why: it never leaves anything out. ports/retarget.py refuses a module that it doesn't
know."""
import pathlib
import re
import tempfile

from translators import PORTS

HEADER = '#include <stdint.h>\ntypedef uint64_t ndef_size;\nuint32_t ndef_f(uint8_t *p, uint64_t n, uint32_t x);\n'
# Lines of a function of `ptr %p, i64 %n, i32 %x`, and a word of what the translator says of them.
LINES = [
    ('%a = sdiv i32 %x, 3', 'sdiv'),
    ('%a = frem double 1.000000e+00, 2.000000e+00', 'frem'),
    ('%a = fcmp one double 1.000000e+00, 2.000000e+00\n%b = zext i1 %a to i32\nstore i32 %b, ptr %p, align 4', 'a comparison one'),
    ('%a = fadd float 1.000000e+00, 2.000000e+00', 'type'),
    ('%a = add <2 x i32> zeroinitializer, zeroinitializer', 'type'),
    ('%a = load volatile i32, ptr %p, align 4', 'volatile'),
    ('store volatile i32 %x, ptr %p, align 4', 'volatile'),
    ('%a = load atomic i32, ptr %p monotonic, align 4', 'atomic'),
    ('fence seq_cst', 'fence'),
    ('%a = load ptr, ptr %p, align 8\n%b = load i32, ptr %a, align 4\nstore i32 %b, ptr %p, align 4', 'a load'),
    ('store ptr %p, ptr %p, align 8', 'a store'),
    ('%a = load { i32, i32 }, ptr %p, align 4\n%b = extractvalue { i32, i32 } %a, 0\nstore i32 %b, ptr %p, align 4', 'a load'),
    ('store { i32, i32 } zeroinitializer, ptr %p, align 4', 'a store'),
    ('%a = getelementptr inbounds [4 x i8], ptr %p, i64 0, i64 1', '`,`'),
    ('%a = getelementptr inbounds <{ i8, i32 }>, ptr %p, i64 %n\nstore i32 %x, ptr %a, align 4', 'the size'),
    ('%a = extractvalue { { i32, i32 }, i8 } zeroinitializer, 0, 1', '`,`'),
    ('%a = extractvalue [2 x i64] zeroinitializer, 0\nstore i64 %a, ptr %p, align 8', 'a part of'),
    ('%a = insertvalue [2 x i64] poison, i64 %n, 0\nstore [2 x i64] %a, ptr %p, align 8', 'a struct of'),
    ('%a = insertvalue <{ i32 }> poison, i32 %x, 0\n%b = extractvalue <{ i32 }> %a, 0\nstore i32 %b, ptr %p, align 4', 'Struct'),
    ('%a = alloca i8, i64 %n, align 1', 'align'),
    ('%a = alloca [4 x i8], align 32', 'aligned to 32'),
    ('br label %b\nb:\n%a = alloca i32, align 4\nstore i32 1, ptr %a, align 4', 'after the first'),
    ('%a = call i32 @elsewhere(i32 %x)', 'elsewhere'),
    ('%a = call i32 %p(i32 %x)', 'no function'),
    ('%a = call i32 @llvm.ctpop.i32(i32 %x)', 'ctpop_i32'),
    ('%a = call i6 @llvm.umin.i6(i6 1, i6 2)', 'umin_i6'),
    ('%a = call { i32, i1 } @llvm.uadd.with.overflow.i32(i32 %x, i32 %x)', 'uadd_with_overflow'),
    ('call void @llvm.memset.p0.i64(ptr %p, i8 0, i64 %n, i1 true)', 'volatile'),
    ('%a = add i64 %n, ptrtoint (ptr @elsewhere to i64)\nstore i64 %a, ptr %p, align 8', 'elsewhere'),
    ('%a = ptrtoint ptr %p to i128\n%b = trunc i128 %a to i32\nstore i32 %b, ptr %p, align 4', 'a cast ptrtoint'),
    ('%a = zext i32 %x to i256\n%b = trunc i256 %a to i32\nstore i32 %b, ptr %p, align 4', '256 bits'),
    ('%a = add i32 %x, trunc (i64 ptrtoint (ptr @elsewhere to i64) to i32)', 'trunc'),
    ('br label %c\nb:\nbr label %c\nc:\n%a = phi i32 [ 1, %b ], [ 2, %nowhere ]\nstore i32 %a, ptr %p, align 4',
     'nowhere'),
    ('%a = add i32 %x, 1, !unknown', '`,`'),
    ('%a = addrspacecast ptr %p to ptr addrspace(1)', 'addrspacecast'),
    ('%a = call i32 asm "nop", "=r"()', 'asm'),
    ('indirectbr ptr %p, [label %b]', 'indirectbr'),
]
# Lines of the module outside of functions.
OUTSIDE = [
    ('@changed = internal global i32 0, align 4', 'global'),
    ('@wide = internal constant [16 x i8] zeroinitializer, align 16', 'aligned to 16'),
    ('@number = internal constant double 1.0, align 8', 'double'),
    ('@struct = internal constant { i8, ptr } { i8 1, ptr @struct }, align 8', 'type'),
    ('define void @ndef_other() {\n  ret void\n}', 'other calls'),
    ('define internal void @many(i32 %x, ...) {\n  ret void\n}', 'type'),
    ('define internal void @copied(ptr byval([4 x i8]) %x) {\n  ret void\n}', 'byval'),
    ('@short = internal constant [4 x i8] c"abc", align 1', '3 bytes'),
]
FUNCTION = 'define i32 @ndef_f({parameters}) {{\n{lines}\n  ret i32 %x\n}}\n'


TRIPLE, LAYOUT = 'riscv64-unknown-linux-gnu', 'e-m:e-p:64:64-i64:64'
PROCESSOR = 'attributes #0 = { nounwind "probe-stack"="inline-asm" "stack-probe-size"="3072" "target-cpu"="x86-64" }\n'
KNOWN = 'target datalayout = "e"\ntarget triple = "x86_64-unknown-linux-gnu"\n'
# What a module of the library may not have besides, or may have once less.
ADDED = ['%a = call i32 asm "nop", "=r"()', '%a = inttoptr i64 1 to ptr', 'define void @f(ptr byval(i32) %x)', PROCESSOR, 'target triple = ""',
         'define noundef i32 @ndef_more(ptr %x)', '%a = addrspacecast ptr %p to ptr addrspace(1)']


MAIN = 'define i32 @main() {\n'


def refused(ports, outside, lines, parameters='ptr %p, i64 %n, i32 %x'):
    """What the translator says of a module, or nothing where it writes it in C."""
    with tempfile.TemporaryDirectory() as folder:
        (pathlib.Path(folder) / 'ndef.h').write_text(HEADER)
        try:
            ports.translated(f'{outside}\n' + FUNCTION.format(parameters=parameters, lines=lines), folder, '0', 'ndef.c')
        except ports.Unknown as unknown:
            return str(unknown)
    return ''


def is_refused_program(ports, old, new):
    text = pathlib.Path(__file__).with_name('program.ll').read_text(encoding='utf-8')
    try:
        ports.translated_program(text.replace(old, new), '0', 'commands.c')
    except ports.Unknown:
        return old in text
    return False


def is_retargeted(ports, added='', is_program=False):
    """Whether retarget.py takes the known module, or that of a program, with this besides."""
    calls = re.findall(r'^uint32_t (ndef_\w+)\(', (PORTS.parent / 'include/ndef.h').read_text(encoding='utf-8'), re.M)
    known = KNOWN + PROCESSOR * ports.PROCESSORS[is_program] + ''.join(f'define noundef i32 @{name}(ptr %x) {{\n' for name in calls) * (not is_program)
    try:
        ports.retargeted(f'{known}{added}\n', TRIPLE, LAYOUT, is_program)
    except SystemExit:
        return False
    return True


# What no program may have: a text of program.ll, and what would take its place.
IN_PROGRAM = [('i32 524288)', 'i32 524288, i32 0)'), ('define i32 @main()', 'define i32 @other()'), ('define internal i64 @memory', 'define i64 @memory')]


def tests(ports):
    """Names of tests of the translators, whether they pass, and what was said."""
    yield 'a function of one line is translated', refused(ports, '', '  %a = add i32 %x, 1') == '', ''
    for outside, lines, word in [*(('', lines, word) for lines, word in LINES), *((outside, '', word) for outside, word in OUTSIDE)]:
        said = refused(ports, outside, lines)
        yield f'`{(lines or outside).splitlines()[-1]}` is refused', word in said, said or 'it was translated'
    for old, new in IN_PROGRAM:
        yield f'a program with `{new}` is refused', is_refused_program(ports, old, new), ''
    said = refused(ports, '', '', 'ptr %p, i64 %n, i64 %x')
    yield 'a call with another parameter than the header declares is refused', 'parameters' in said, said
    yield 'the known module is retargeted', is_retargeted(ports), ''
    for added, is_one in (('', False), (MAIN, True), (MAIN * 2, False)):
        yield f'a program with {added.count(MAIN)} main', is_retargeted(ports, added, True) == is_one, ''
    for added in ADDED:
        yield f'a module with `{added.strip()}` besides is not retargeted', not is_retargeted(ports, added), ''
