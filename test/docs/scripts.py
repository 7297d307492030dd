"""What the scripts `ndef`, `ndef-make` and `ndef-explain` do, with stand-ins for rt and for dist/."""
import hashlib
import os
import pathlib
import platform
import pty
import re
import shutil
import signal
import subprocess
import sys
import tempfile
import time

import harness

STAND_IN = r'''#!/usr/bin/env bash
case $1 in
run)
    echo 'rt: chose --jobs 4 for ndef_format'
    echo 'so far: 1 of 2 functions checked'
    echo 'rt: chose --jobs 4 for ndef_value'
    echo 'so far: 0 of 103 functions checked; the verdict comes last'
    echo 'rt: chose --jobs 4 for ndef_lang'
    echo 'so far: 120 of 183 functions checked' >&2
    [ ! -e ../../slow ] || sleep 20
    [ ! -e ../../broken ] || { echo 'error: not proved'; exit 1; }
    mkdir -p out
    printf '#!/bin/sh\necho built "$@"\n' >"out/${PWD##*/}"
    chmod +x "out/${PWD##*/}"
    ;;
try)
    shift
    while [ "$1" = --data ]; do echo "given ${2%%=*}: $(cat "${2#*=}")"; shift 2; done
    shift
    echo tried "$@"
    echo 'error: a line of its own' >&2
    [ ! -e ../../broken ] || exit 1
    printf 'checked: ended status=1\nrun=ended status=1 runners=1 proved=no\n' >&2
    exit "$(cat ../../status)"
    ;;
esac
'''


# A program in the place of the commands of dist/.
COMMANDS = r'''#include <stdio.h>
#include <string.h>
int main(int count, char **words) {
    printf("dist %s", strrchr(words[0], '/') + 1);
    for (int i = 1; i < count; i++) printf(" %s", words[i]);
    return puts("") < 0;
}
'''

# The source of the commands for this machine.
SOURCE = {'x86_64': 'commands-x86_64-linux.s', 'aarch64': 'commands-aarch64-linux.s'}.get(platform.machine(), 'commands.c')


def source(text):
    """A program in C as that source has it."""
    made = subprocess.run([*os.environ.get('CC', 'cc').split(), '-xc', '-', '-S', '-fPIE', '-o', '-'], input=text, capture_output=True, text=True, check=True)
    return made.stdout if SOURCE.endswith('.s') else text


# The library in dist/.
LIBRARY = '#include "ndef.h"\nint answer(void) {\n#ifdef OTHER\n    return OTHER;\n#else\n    return 5;\n#endif\n}\n'

SCRIPTS = ('ndef', 'ndef-make', 'ndef-explain')


class Copy:
    """A copy of the scripts, with crates that have no code and stand-ins for rt and for dist/."""

    def __init__(self, top, folder):
        self.folder = pathlib.Path(folder)
        for name in (*SCRIPTS, 'packaging', 'crates.txt'):
            copy = shutil.copytree if (top / name).is_dir() else shutil.copy
            copy(top / name, self.folder / name)
        for crate in ('ndef_value', 'ndef_lang', 'ndef_commands', 'ndef_c'):
            (self.folder / 'crates' / crate / 'src').mkdir(parents=True)
            (self.folder / 'crates' / crate / 'src/main.rt').write_text('')
        (self.folder / 'dist').mkdir()
        self.release({SOURCE: source(COMMANDS), 'runtime.c': 'extern int no_calls;\n', 'ndef.c': LIBRARY, 'ndef.h': 'int answer(void);\n'}, '9.8.7')
        (self.folder / 'status').write_text('1')
        (self.folder / 'moment').mkdir()
        (self.folder / 'bin').mkdir()
        (self.folder / 'bin/rt').write_text(STAND_IN)
        (self.folder / 'bin/rt').chmod(0o755)

    def release(self, texts, version):
        """Puts files in dist/, with their sums."""
        dist = self.folder / 'dist'
        for name, text in texts.items():
            (dist / name).write_text(text)
        sums = ''.join('%s  %s\n' % (hashlib.sha256(path.read_bytes()).hexdigest(), path.name) for path in dist.iterdir() if path.name != 'SOURCE')
        (dist / 'SOURCE').write_text('version %s\n' % version + sums)

    def program(self, name, text):
        """Puts a program on the path."""
        (self.folder / 'bin' / name).write_text('#!/bin/sh\n' + text)
        (self.folder / 'bin' / name).chmod(0o755)

    def environment(self, has_rt=True):
        tools = os.pathsep.join(folder for folder in os.environ['PATH'].split(os.pathsep)
                                if not os.path.exists(os.path.join(folder, 'rt')))
        return dict(os.environ, TMPDIR=str(self.folder / 'moment'), PATH=f'{self.folder / "bin"}{os.pathsep}{tools}' if has_rt else tools)

    def run(self, *words, has_rt=True, stdin=subprocess.DEVNULL, **more):
        return subprocess.run([f'./{words[0]}', *words[1:]], cwd=self.folder, env=dict(self.environment(has_rt), **more),
                              stdin=stdin, capture_output=True, text=True)


def expect(run, status, stdout, *lines):
    """What differs from a status, an output and lines of standard error."""
    if run.returncode != status:
        yield f'status {run.returncode}, not {status}'
    if run.stdout != stdout:
        yield f'standard output {run.stdout!r}'
    for line in lines:
        if line not in run.stderr.splitlines():
            yield f'no line {line!r} in {run.stderr!r}'


def says_only(run, line):
    """Whether standard error is one line."""
    if run.stderr != line + '\n':
        yield f'standard error {run.stderr!r}'


def from_dist(copy):
    first = copy.run('ndef', 'show', '--hex', has_rt=False)
    yield from expect(first, 0, 'dist ndef show --hex\n')
    yield from says_only(first, 'ndef: compiling release 9.8.7 of dist/, once')
    for name in SCRIPTS:
        run = copy.run(name, 'a', 'b c')
        yield from expect(run, 0, f'dist {name} a b c\n')
        yield from says_only(run, f'{name}: running release 9.8.7 of dist/')


def from_another_dist(copy):
    """Where a file of dist/ or a command is newer or missing, the commands are compiled again."""
    copy.run('ndef', 'show')
    said = 'ndef: compiling release %s of dist/, once'
    copy.release({SOURCE: source(COMMANDS.replace('dist %s', 'other %s'))}, '9.8.8')
    os.utime(copy.folder / 'dist/SOURCE', (0, 0))
    os.utime(copy.folder / 'dist' / SOURCE, (time.time() + 5, time.time() + 5))
    run = copy.run('ndef', 'show')
    yield from expect(run, 0, 'other ndef show\n')
    yield from says_only(run, said % '9.8.8')
    for name, at in ((SOURCE, 0), ('runtime.c', time.time() + 5)):
        os.utime(copy.folder / 'dist' / name, (at, at))
    yield from says_only(copy.run('ndef', 'show'), said % '9.8.8')
    os.utime(copy.folder / 'dist/runtime.c', (0, 0))
    yield from says_only(copy.run('ndef', 'show'), 'ndef: running release 9.8.8 of dist/')
    for name in SCRIPTS:
        (copy.folder / 'out/dist' / name).unlink()
        run = copy.run('ndef', 'show')
        yield from expect(run, 0, 'other ndef show\n')
        yield from says_only(run, said % '9.8.8')
        yield from says_only(copy.run('ndef', 'show'), 'ndef: running release 9.8.8 of dist/')
    left = sorted(path.name for path in (copy.folder / 'out/dist').iterdir())
    if left != sorted(SCRIPTS):
        yield f'out/dist has {left}'


def with_compilers(copy):
    """CC names the compiler and its flags, else cc, gcc or clang is it; CFLAGS and LDFLAGS are given to it."""
    copy.program('noting', 'echo "$@" >>noted\nexec cc "$@"\n')
    copy.program('broken', 'echo no >&2\nexit 1\n')
    noted = copy.folder / 'noted'
    for words, wanted in ((dict(CC='noting -DONE'), '-DONE -O2 '), (dict(CC='noting', CFLAGS='-O1 -DTWO'), '-O1 -DTWO '), (dict(CC='noting', LDFLAGS='-lm'), ' -lm ')):
        shutil.rmtree(copy.folder / 'out', ignore_errors=True)
        yield from expect(copy.run('ndef', 'show', **words), 0, 'dist ndef show\n')
        if wanted not in noted.read_text():
            yield f'{words}: the compiler was given {noted.read_text()!r}'
        noted.unlink()
    shutil.rmtree(copy.folder / 'out')
    run = copy.run('ndef', 'show', CC='broken')
    yield from expect(run, 3, '', 'no', "ndef: broken doesn't compile dist/, as it says above: name another C compiler with CC")
    if any((copy.folder / 'out/dist').iterdir()):
        yield 'a compiler that fails leaves a file'
    for name in ('gcc', 'clang'):
        folder = copy.folder / ('with_' + name)
        folder.mkdir()
        for tool in ('sh', 'dirname', 'readlink', 'sha256sum', 'cut', 'mkdir', 'mv', 'ln', 'rm', 'uname'):
            (folder / tool).symlink_to(shutil.which(tool))
        (folder / name).write_text(f'#!/bin/sh\nPATH={os.environ["PATH"]} exec cc "$@"\n')
        (folder / name).chmod(0o755)
        shutil.rmtree(copy.folder / 'out')
        yield from expect(copy.run('ndef', 'show', PATH=str(folder)), 0, 'dist ndef show\n')


def library_from_dist(copy):
    """packaging/build/from_dist compiles the library to an archive, and says what it doesn't know."""
    program = copy.folder / 'answer.c'
    program.write_text('#include "dist/ndef.h"\nint main(void) { return answer(); }\n')
    for flags, answer in ({}, 5), ({'CFLAGS': '-DOTHER=7'}, 7):
        run = copy.run('packaging/build/from_dist', 'library', copy.folder / 'out/made/libndef.a', **flags)
        yield from expect(run, 0, '')
        subprocess.run(['cc', program, copy.folder / 'out/made/libndef.a', '-o', copy.folder / 'answer'], cwd=copy.folder)
        if subprocess.run([copy.folder / 'answer']).returncode != answer:
            yield f'{flags}: another answer'
        if [path.name for path in (copy.folder / 'out/made').iterdir()] != ['libndef.a']:
            yield 'other files are left beside the archive'
    yield from expect(copy.run('packaging/build/from_dist', 'version'), 0, '9.8.7\n')
    yield from expect(copy.run('packaging/build/from_dist', 'check', 'ndef.h', 'runtime.c'), 0, '')
    (copy.folder / 'dist/ndef.h').write_text('int answer(int);\n')
    for words in (['check', 'runtime.c', 'ndef.h'], ['check', 'ndef.h', 'runtime.c'], ['library', copy.folder / 'out/other.a']):
        yield from expect(copy.run('packaging/build/from_dist', *words), 3, '', "from_dist: dist/ndef.h isn't the file whose SHA-256 is in dist/SOURCE: "
                          "take dist/ from the release again, as by 'git checkout dist'")
    yield from expect(copy.run('packaging/build/from_dist', 'check', 'none.c'), 3, '')
    copy.release({'ndef.h': 'int answer(void);\n'}, '9.8.7')
    copy.program('failing', 'echo failing >&2\nexit 1\n')
    yield from expect(copy.run('packaging/build/from_dist', 'library', copy.folder / 'out/none/libndef.a', AR='failing'), 3, '', 'failing')
    if (copy.folder / 'out/none/libndef.a').exists():
        yield 'an archive that ar did not make'
    # Where there is no sha256sum, as on macOS, shasum does it.
    few = copy.folder / 'few'
    few.mkdir()
    for program in ('sh', 'dirname', 'readlink', 'cut'):
        (few / program).symlink_to(shutil.which(program))
    (few / 'shasum').write_text('#!/bin/sh\n[ "$*" = "-a 256" ] && exec %s\n' % shutil.which('sha256sum'))
    (few / 'shasum').chmod(0o755)
    yield from expect(copy.run('packaging/build/from_dist', 'check', 'ndef.h', PATH=str(few)), 0, '')
    yield from expect(copy.run('packaging/build/from_dist', 'check', 'none.h', PATH=str(few)), 3, '')
    yield from expect(copy.run('packaging/build/from_dist'), 3, '', 'from_dist: say what to make: commands, library FILE, version, or check FILE..')


def not_from_dist(copy):
    dist = copy.folder / 'dist'
    run = copy.run('ndef', 'show', CC='no-such-cc')
    yield from expect(run, 3, '')
    yield from says_only(run, "ndef: there is no C compiler no-such-cc on the path: install one, as by 'apt install gcc', or name it with CC")
    (dist / 'runtime.c').write_text('extern int changed;\n')
    run = copy.run('ndef', 'show')
    yield from expect(run, 3, '')
    yield from says_only(run, "ndef: dist/runtime.c isn't the file whose SHA-256 is in dist/SOURCE: take dist/ from the release again, "
                              "as by 'git checkout dist'")
    (copy.folder / 'bin/elsewhere').write_text('#!/bin/sh\necho riscv64-linux-gnu\n')
    (copy.folder / 'bin/elsewhere').chmod(0o755)
    run = copy.run('ndef', 'show', CC='elsewhere')
    yield from expect(run, 3, '')
    yield from says_only(run, 'ndef: dist/ has commands for x86-64 and AArch64 Linux only, and this compiler is for riscv64-linux-gnu: '
                              "make the library for C with 'make library'")
    shutil.rmtree(dist)
    run = copy.run('ndef', 'show')
    yield from expect(run, 3, '')
    yield from says_only(run, "ndef: dist/SOURCE is missing: take the folder dist/ from the release, or prove the sources with 'make prove'")


def without_rt(copy):
    for words in (('ndef', '--prove', 'show'), ('ndef', '--try', 'show'), ('ndef-make', '--prove', 'text', 'x'), ('ndef-explain', '--prove', '-')):
        yield from expect(copy.run(*words, has_rt=False), 3, '',
                          f'{words[0]}: without it ./{words[0]} runs the release in dist/, which needs a C compiler alone')


def unproved(copy):
    for script in SCRIPTS:
        run = copy.run(script, '--try', 'check', '--hex')
        yield from expect(run, 1, f'tried {script} check --hex\n', f'{script}: running unproved; ./{script} --prove proves it first', 'error: a line of its own')
        if 'run=ended' in run.stderr:
            yield f"{script}: rt's own lines are shown"
    (copy.folder / 'status').write_text('0')
    yield from expect(copy.run('ndef', '--try', 'check'), 0, 'tried ndef check\n')


def unproved_with_files(copy):
    (copy.folder / 'tag.bin').write_text('bytes')
    run = copy.run('ndef-explain', '--try', 'tag.bin', 'none.bin', '../tag.bin', str(copy.folder / 'tag.bin'), '-')
    yield from expect(run, 1, f'given tag.bin: bytes\ntried ndef-explain tag.bin none.bin ../tag.bin {copy.folder}/tag.bin -\n')


def try_comes_first(copy):
    for script in SCRIPTS:
        copy.run(script, '--prove')
        yield from expect(copy.run(script, 'check', '--try'), 0, f'built {script} check --try\n')


def unproved_and_broken(copy):
    (copy.folder / 'broken').touch()
    yield from expect(copy.run('ndef', '--try', 'show'), 3, 'tried ndef show\n')


def built_once(copy):
    first = copy.run('ndef', '--prove', 'show', '--hex')
    yield from expect(first, 0, 'built ndef show --hex\n', 'ndef: crate 1 of {}: ndef_format, 1 of 2 functions'.format(count(first)),
                      'ndef: crate 4 of {}: ndef_lang, 120 of 183 functions'.format(count(first)))
    if 'processor minutes' not in first.stderr or 'ndef: proved and built in 0 minutes' not in first.stderr:
        yield f'no cost or no time in {first.stderr!r}'
    for script, *words in (('ndef', 'show'), ('ndef', '--prove', 'show'), ('ndef-make', '--prove', 'show'), ('ndef-explain', 'show')):
        again = copy.run(script, *words, has_rt=False)
        yield from expect(again, 0, f'built {script} show\n')
        if again.stderr:
            yield f'the next run says {again.stderr!r}'
    time.sleep(0.1)
    (copy.folder / 'crates/ndef_commands/src/main.rt').write_text('another')
    changed = copy.run('ndef', 'show', has_rt=False)
    yield from expect(changed, 0, 'dist ndef show\n')
    yield from says_only(changed, 'ndef: crates/ has changed since it was proved here; compiling release 9.8.7 of dist/, once')
    yield from says_only(copy.run('ndef', 'show'), 'ndef: crates/ has changed since it was proved here; running release 9.8.7 of dist/')


def built_again(copy):
    for script in SCRIPTS:
        copy.run(script, '--prove')
        for source in ('ndef_lang/src/main.rt', 'ndef_commands/src/main.rt', 'ndef_lang/specs/New.antt'):
            path = copy.folder / 'crates' / source
            path.parent.mkdir(exist_ok=True)
            path.write_text('')
            # A file system may keep no more than whole ticks of the clock.
            os.utime(path, (time.time() + 5, time.time() + 5))
            yield from expect(copy.run(script), 0, f'dist {script}\n')
            run = copy.run(script, '--prove')
            yield from expect(run, 0, f'built {script}\n')
            if 'processor minutes' not in run.stderr and 'a minute or two' not in run.stderr:
                yield f'{script}: after an edit of {source} the old program ran'
            os.utime(path, (0, 0))
        other = copy.folder / 'crates/ndef_c/src/main.rt'
        os.utime(other, (time.time() + 5, time.time() + 5))
        if copy.run(script, '--prove', has_rt=False).returncode:
            yield f'{script}: an edit of ndef_c, on which it does not stand, builds it again'


def cost_is_said(copy):
    """The cost is that of the crates that are left, by the table."""
    (copy.folder / 'packaging/processor_seconds').write_text('# seconds\nndef_value 600\nndef_lang 1190\n')
    first = copy.run('ndef', '--prove').stderr
    count = len(crates_of(copy, 'ndef_commands'))
    minutes = (600 + 1190 + 60 * (count - 2) + 59) // 60
    for line in (f'ndef: proving and building the program, once (crates to prove: {count} of {count})', f'ndef: this takes some {minutes} processor minutes'):
        if line not in first:
            yield f'no {line!r} in {first!r}'
    (copy.folder / 'crates/ndef_value/out').mkdir()
    (copy.folder / 'crates/ndef_value/out/rlib').write_text('')
    (copy.folder / 'crates/ndef_commands/out/ndef_commands').unlink(missing_ok=True)
    second = copy.run('ndef', '--prove').stderr
    if f'(crates to prove: {count - 1} of {count})' not in second or f'some {minutes - 10} processor minutes' not in second:
        yield f'with one crate proved: {second!r}'
    # As README.md and docs/DECISIONS.md have them.
    for seconds, minutes in ((1446, 'some 25 processor minutes (12 minutes on 4 cores)'), (2529, 'some 43 processor minutes (20 minutes on 4 cores)'),
                             (181, 'some 4 processor minutes'), (180, 'a minute or two')):
        table = ''.join('%s %d\n' % (crate, seconds if crate == 'ndef_commands' else 0) for crate in crates_of(copy, 'ndef_commands'))
        (copy.folder / 'packaging/processor_seconds').write_text(table)
        (copy.folder / 'crates/ndef_commands/out/ndef_commands').unlink()
        said = copy.run('ndef', '--prove').stderr
        if f'ndef: this takes {minutes}' not in said or ('5 GB of disk' in said) != ('some' in minutes):
            yield f'{seconds} seconds: {said!r}'
    said = subprocess.run(['packaging/build/with_rt', 'cost', 'make', 'ndef_commands', 'ndef_c'], cwd=copy.folder, capture_output=True, text=True).stderr
    if 'make: proving and building the programs and the libraries, once' not in said:
        yield f'with_rt cost says {said!r}'


def crates_of(copy, *crates):
    script = f'top={copy.folder}; . "$top/packaging/build/proofs.sh"; crates_of {" ".join(crates)}'
    return subprocess.run(['bash', '-c', script], capture_output=True, text=True).stdout.split()


def count(run):
    """How many crates the script counts."""
    return next((line.split()[4].rstrip(':') for line in run.stderr.splitlines() if ': crate ' in line), '?')


def not_proved(copy):
    (copy.folder / 'broken').touch()
    yield from expect(copy.run('ndef-make', '--prove', 'text', 'x'), 3, '', 'error: not proved')


def for_two_processors(copy):
    """On x86-64 the commands are compiled of the sources for both processors, where the release has both, and run that for this one."""
    if platform.machine() != 'x86_64':
        return
    texts = {'runtime.c': 'int ndef_commands(void);\nint main(void) { return ndef_commands(); }\n'}
    for file, name, said in (('commands-x86_64-linux.s', 'ndef_commands', 'plain'), ('commands-x86_64-v2-linux.s', 'ndef_commands_v2', 'faster')):
        texts[file] = source('#include <stdio.h>\nint %s(void) { return puts("%s") < 0; }\n' % (name, said))
    copy.release(texts, '9.8.9')
    flags = re.search('(?m)^flags.*', pathlib.Path('/proc/cpuinfo').read_text())[0].split()
    has_v2 = {'pni', 'ssse3', 'cx16', 'sse4_1', 'sse4_2', 'popcnt'} <= set(flags)
    yield from expect(copy.run('ndef', 'show'), 0, 'faster\n' if has_v2 else 'plain\n')
    # What was changed would compile all the same.
    with (copy.folder / 'dist/commands-x86_64-v2-linux.s').open('a') as file:
        file.write('# changed\n')
    yield from expect(copy.run('packaging/build/from_dist', 'commands'), 3, '', "from_dist: dist/commands-x86_64-v2-linux.s isn't the file whose SHA-256 is "
                      "in dist/SOURCE: take dist/ from the release again, as by 'git checkout dist'")
    (copy.folder / 'dist/commands-x86_64-v2-linux.s').unlink()
    copy.release({}, '9.9.0')
    os.utime(copy.folder / 'dist/SOURCE', (time.time() + 5, time.time() + 5))
    yield from expect(copy.run('ndef', 'show'), 0, 'plain\n')


# A program of four parts, which says how it was compiled.
PARTED = r'''#include <stdio.h>
#ifdef ND_PART
#define IS(part) (ND_PART == part)
#else
#define IS(part) 1
#endif
int second(void), third(void), fourth(void);
#if IS(1)
int main(void) {
#ifdef __OPTIMIZE__
    puts("fast");
#elif defined TCC
    puts("by tcc");
#elif defined ND_PART
    puts("in parts");
#endif
    return second() + third() + fourth();
}
#endif
#if IS(2)
int second(void) { return 0; }
#endif
#if IS(3)
int third(void) { return 0; }
#endif
#if IS(4)
int fourth(void) { return 0; }
#endif
'''


def by_the_c_file(copy):
    """Without assembly for the machine the scripts compile commands.c in the least time, and make by -O2."""
    if SOURCE.endswith('.s'):
        (copy.folder / 'dist' / SOURCE).unlink()
    copy.release({'commands.c': PARTED}, '9.8.8')
    said = 'ndef: compiling release 9.8.8 of dist/, once'
    slowly = said + ", which takes some seconds ('make' makes faster ones)"
    copy.program('tcc', 'exec cc -DTCC "$@"\n')
    for words, printed, line in (({}, 'by tcc\n', said), ({'CC': 'cc'}, 'in parts\n', slowly)):
        shutil.rmtree(copy.folder / 'out', ignore_errors=True)
        run = copy.run('ndef', 'show', **words)
        yield from expect(run, 0, printed)
        yield from says_only(run, line)
        if sorted(path.name for path in (copy.folder / 'out/dist/quick').iterdir()) != sorted(SCRIPTS):
            yield f'{words}: other files are left in out/dist/quick'
        yield from says_only(copy.run('ndef', 'show'), 'ndef: running release 9.8.8 of dist/')
    yield from expect(copy.run('packaging/build/from_dist', 'commands'), 0, '', said.replace('ndef', 'from_dist'))
    yield from expect(copy.run('ndef', 'show'), 0, 'fast\n', 'ndef: running release 9.8.8 of dist/')
    copy.program('tcc', 'exit 1\n')
    shutil.rmtree(copy.folder / 'out')
    yield from expect(copy.run('ndef', 'show'), 0, 'in parts\n', slowly)
    copy.release({'commands.c': PARTED.replace('int third(void) {', 'int third(void) { no')}, '9.8.9')
    shutil.rmtree(copy.folder / 'out')
    yield from expect(copy.run('ndef', 'show', CC='cc'), 3, '', "ndef: cc doesn't compile dist/, as it says above: name another C compiler with CC")
    if any((copy.folder / 'out/dist/quick').iterdir()):
        yield 'a part that is not compiled leaves a file'


def interrupted(copy):
    (copy.folder / 'slow').touch()
    for number in (signal.SIGINT, signal.SIGTERM):
        # A job of a shell in the background begins with interrupts ignored.
        run = subprocess.Popen(['./ndef', '--prove', 'show'], cwd=copy.folder, env=copy.environment(), stdin=subprocess.DEVNULL,
                               stderr=subprocess.PIPE, text=True, start_new_session=True,
                               preexec_fn=lambda: signal.signal(signal.SIGINT, signal.SIG_DFL))
        begun = run.stderr.readline()
        time.sleep(3)
        os.killpg(run.pid, number)
        said = begun + run.communicate(timeout=60)[1]
        if run.returncode != 3 or 'ndef: interrupted; the next run goes on from what is proved' not in said:
            yield f'{number}: status {run.returncode}, {said!r}'


def made_of(copy):
    """packaging/build/crates_or_dist says crates where both things are proved and newer than its sources, else dist."""
    made = [copy.folder / 'crates' / name for name in ('ndef_commands/out/ndef_commands', 'ndef_c/out/libndef_c.a')]
    for path in made:
        path.parent.mkdir(parents=True, exist_ok=True)
        path.write_text('')
    yield from expect(copy.run('packaging/build/crates_or_dist'), 0, 'crates\n')
    for path in made:
        for is_old in (True, False):
            if is_old:
                os.utime(path, (1, 1))
            else:
                path.unlink()
            yield from expect(copy.run('packaging/build/crates_or_dist'), 0, 'dist\n')
        path.write_text('')
    yield from expect(copy.run('packaging/build/crates_or_dist'), 0, 'crates\n')


def by_links(copy):
    """A script that is called by a link in another folder, or by a link to that one, does what it does by its own name."""
    links = copy.folder / 'links'
    links.mkdir()
    for script in SCRIPTS:
        wanted = copy.run(script, '--try', 'a')
        (links / script).symlink_to(copy.folder / script)
        (links / 'again').unlink(missing_ok=True)
        (links / 'again').symlink_to(script)
        for name in ('links/' + script, 'links/again'):
            got = copy.run(name, '--try', 'a')
            if (got.returncode, got.stdout) != (wanted.returncode, wanted.stdout) or not wanted.stdout:
                yield f'{name} to {script}: {got.returncode} {got.stdout!r} {got.stderr!r}'


# Words of each script, and what it says then that it reads from a terminal. Of `ndef` the program says so.
READS = {**{(script, word): None for script in SCRIPTS for word in ('--help', '--version')},
         ('ndef', 'show'): None, ('ndef',): None, ('ndef-make', 'text', 'x'): None, ('ndef-make', 'uri', 'x'): None, ('ndef-make', 'text', 'media', '--hex'): None,
         ('ndef-make', 'record', '--tnf', '5'): 'the payload of the record',
         ('ndef-make', 'carrier', '--format', '1', '--type', 'a'): 'the payload of the record',
         ('ndef-make', 'text', 'x', '--and', 'record', '--tnf', '5'): 'the payload of the record', ('ndef-explain', '--hex'): 'messages',
         ('ndef-explain',): 'messages', ('ndef-explain', '-'): 'messages', ('ndef-explain', '--json', 'tag'): None}


def on_a_terminal(copy):
    if not harness.has('pseudo-terminals'):
        return
    terminal, end = pty.openpty()
    for version in '1.0.0', '9.8.7':
        copy.release({}, version)
        for script in SCRIPTS:
            copy.run(script)
        for words, reads in READS.items():
            waiting = [f'{words[0]}: reading {reads} from standard input'] if reads and version == '1.0.0' else []
            said = [f'{words[0]}: running release {version} of dist/', *waiting]
            run = copy.run(*words, stdin=end)
            if run.stderr.splitlines() != said:
                yield f'{words}: on a terminal {run.stderr!r}'
            if copy.run(*words).stderr.splitlines() != said[:1]:
                yield f'{words}: where no terminal is the input, it says that it waits'
    os.close(terminal)
    os.close(end)


def all_tests(top):
    """The name of each test, and what is wrong."""
    tests = {'the scripts compile dist/ once, and say that they run it': from_dist,
             'the scripts compile dist/ again where a file of it is newer or a command is missing': from_another_dist,
             'the scripts compile the commands for two processors, where dist/ has both, and run those for this one': for_two_processors,
             'the scripts compile commands.c where dist/ has no assembly for the machine, in the least time': by_the_c_file,
             'the scripts compile dist/ with the compiler that CC names, or the first that is there': with_compilers,
             'packaging/build/from_dist compiles the library and looks at sums': library_from_dist,
             'packaging/build/crates_or_dist says of what things are made': made_of,
             './ndef says why it does not compile dist/, with status 3': not_from_dist,
             'the scripts say what is missing without rt': without_rt,
             '--try runs the programs unproved, with their status': unproved,
             '--try gives the program the files that its words name': unproved_with_files,
             'the scripts run unproved where --try is the first word alone': try_comes_first,
             './ndef --try ends with 3 where the program can not run': unproved_and_broken,
             './ndef --prove proves and builds once, and says what it costs and how far it is': built_once,
             '--prove proves and builds again after an edit of a source, and after no other': built_again,
             '--prove says what is left, by the table of processor seconds': cost_is_said,
             './ndef-make --prove shows why nothing is proved, with status 3': not_proved,
             './ndef --prove says that an interrupted or ended run goes on': interrupted,
             'a link to a script does what the script does': by_links,
             'the scripts say on a terminal that they read, and what': on_a_terminal}
    for name, run in tests.items():
        with tempfile.TemporaryDirectory() as folder:
            copy = Copy(top, folder)
            wrong = list(run(copy))
            yield name, wrong + [f'{path.name} is left' for path in (copy.folder / 'moment').iterdir()]


if __name__ == '__main__':
    for test, found in all_tests(pathlib.Path(__file__).resolve().parents[2]):
        if found:
            sys.exit('\n'.join([test, *found]))
