"""The programs of bench/: how each is built of what `make` makes, and what is missing where one is left out.

Nothing is proved: `make` takes what was proved here, or dist/ where NDEF_FROM says so or nothing is proved.
"""
import os
import pathlib
import platform
import shutil
import subprocess
import sys

HERE = pathlib.Path(__file__).resolve().parent
TOP = HERE.parent
# Debian's package of the crate puts its source here.
SIMDUTF8 = pathlib.Path(os.environ.get('CARGO_REGISTRY', '/usr/share/cargo/registry'))


# All programs, by the name of the method that builds each.
NAMES = ('c', 'c_v2', 'c_gcc', 'c_clang', 'plain', 'utf8', 'qt', 'rust', 'rust_lto', 'rust_simd', 'cpp', 'python', 'javascript', 'java', 'go', 'page', 'commands')


class Missing(Exception):
    """What a program needs isn't there."""


def run(words, **named):
    """What a command prints. Missing where it fails, with the last line of what it said."""
    done = subprocess.run([str(word) for word in words], stdout=subprocess.PIPE, stderr=subprocess.PIPE, **named)
    if done.returncode:
        said = (done.stderr or done.stdout).decode(errors='replace').strip().split('\n')
        raise Missing('%s: %s' % (pathlib.Path(str(words[0])).name, said[-1]))
    return done.stdout.decode()


def needed(name, package):
    """The program with this name. Missing where it isn't on the path."""
    found = shutil.which(name)
    if not found:
        raise Missing('no %s (Debian package %s)' % (name, package))
    return found


class Bench:
    """A folder with all that is built, and the words with which each program is run."""

    def __init__(self, folder):
        self.folder = folder
        self.messages, self.bin = folder / 'messages', folder / 'bin'
        for made in (self.messages, self.bin):
            made.mkdir(parents=True, exist_ok=True)
        self.compiler = os.environ.get('CC', 'cc')

    def make(self, *targets):
        run(['make', '-s', '-C', TOP, *targets])

    def made_of(self):
        return (TOP / 'out/from').read_text().strip()

    def header(self):
        return TOP / ('dist' if self.made_of() == 'dist' else 'include')

    def archives(self):
        """The library for any x86-64, or for this machine, and the faster one or None."""
        folder = TOP / 'out/dist' if self.made_of() == 'dist' else TOP / 'crates/ndef_c/out'
        plain = folder / ('libndef.a' if self.made_of() == 'dist' else 'libndef_c.a')
        faster = TOP / 'out/lib/libndef-v2.a'
        return plain, faster if self.made_of() == 'crates' and faster.exists() else None

    def compiled(self, name, *more):
        program = self.bin / name
        run([self.compiler, '-std=c99', '-O2', HERE / (name + '.c'), *more, '-o', program])
        return program

    def write_messages(self):
        self.make('library')
        run([self.compiled('messages'), self.messages])

    def compile_c(self, archive, name, *more):
        program = self.bin / name
        run([self.compiler, '-std=c99', '-O2', '-Wall', '-Wextra', *more, '-I%s' % self.header(), HERE / 'c.c', archive, '-o', program])
        return [program, self.messages]

    def c(self):
        return self.compile_c(self.archives()[0], 'c')

    def c_v2(self):
        faster = self.archives()[1]
        if not faster:
            raise Missing('only what was proved has other code for x86-64-v2, on x86-64')
        return self.compile_c(faster, 'c-v2')

    def compile_file(self, compiler):
        """The C file that is made of the same as the archive, by this compiler."""
        folder = TOP / ('dist' if self.made_of() == 'dist' else 'out/dist-next')
        if not (folder / 'ndef.c').exists():
            raise Missing('no C file of the crates: test/dist/next makes it')
        program = self.bin / ('c-' + compiler)
        run([needed(compiler, compiler), '-std=c99', '-O2', '-w', '-I%s' % folder, HERE / 'c.c', folder / 'ndef.c', '-o', program])
        return [program, self.messages]

    def c_gcc(self):
        return self.compile_file('gcc')

    def c_clang(self):
        return self.compile_file('clang')

    def counted(self):
        """The program whose instructions are counted."""
        needed('valgrind', 'valgrind')
        return self.compile_c(self.archives()[0], 'counted', '-DWITH_CALLGRIND')

    def rustc(self, name, *more):
        needed('rustc', 'rustc')
        program = self.bin / name
        run(['rustc', '-O', '--edition', '2021', *more, '-o', program, HERE / (name + '.rs')])
        return [program, self.messages]

    def plain(self):
        return self.rustc('plain')

    def simdutf8(self):
        """The crate simdutf8, as a library of Rust."""
        needed('rustc', 'rustc')
        found = sorted(SIMDUTF8.glob('simdutf8-*/src/lib.rs'))
        if not found:
            raise Missing('no simdutf8 (Debian package librust-simdutf8-dev)')
        library = self.bin / 'libsimdutf8.rlib'
        run(['rustc', '-O', '--edition', '2018', '--crate-type', 'rlib', '--crate-name', 'simdutf8', '--cfg', 'feature="std"', '--cap-lints',
             'allow', '-o', library, found[-1]])
        return ['--extern', 'simdutf8=%s' % library]

    def utf8(self):
        return self.rustc('utf8', *self.simdutf8())

    def qt(self):
        needed('pkg-config', 'pkg-config')
        try:
            flags = run(['pkg-config', '--cflags', '--libs', 'Qt6Nfc']).split()
        except Missing:
            raise Missing('no Qt (Debian package qt6-connectivity-dev)') from None
        program = self.bin / 'qt'
        run([os.environ.get('CXX', 'c++'), '-O2', '-fPIC', HERE / 'qt.cpp', *flags, '-o', program])
        return [program, self.messages]

    def rust(self, name='rust', profile=''):
        needed('cargo', 'cargo')
        crate = self.folder / name
        (crate / 'src').mkdir(parents=True, exist_ok=True)
        for name, copy in (('face.rs', 'main.rs'), ('clock.rs', 'clock.rs'), ('hand.rs', 'hand.rs')):
            shutil.copy(HERE / name, crate / 'src' / copy)
        (crate / 'Cargo.toml').write_text('[package]\nname = "face"\nversion = "0.0.0"\nedition = "2021"\n\n[dependencies]\n'
                                          'simbegyor-ndef = { path = "%s" }\n\n[workspace]\n%s' % (TOP / 'bindings/rust', profile))
        run(['cargo', 'build', '--release', '--offline', '--quiet'], cwd=crate,
            env={**os.environ, 'CARGO_TARGET_DIR': str(crate / 'target')})
        return [crate / 'target/release/face', self.messages]

    def rust_lto(self):
        return self.rust('rust_lto', '\n[profile.release]\nlto = "fat"\ncodegen-units = 1\n')

    def rust_simd(self):
        """The crate with its feature `simd`, which the package of it has."""
        extern = self.simdutf8()
        library = self.bin / 'libsimbegyor_ndef.rlib'
        features = [word for name in ('alloc', 'std', 'simd') for word in ('--cfg', 'feature="%s"' % name)]
        run(['rustc', '-O', '--edition', '2021', '--crate-type', 'rlib', '--crate-name', 'simbegyor_ndef', *features, *extern, '-o', library,
             TOP / 'bindings/rust/src/lib.rs'])
        program = self.bin / 'rust_simd'
        run(['rustc', '-O', '--edition', '2021', '--extern', 'simbegyor_ndef=%s' % library, '-L', self.bin, '-o', program, HERE / 'face.rs'])
        return [program, self.messages]

    def cpp(self):
        compiler, program = needed(os.environ.get('CXX', 'c++'), 'g++'), self.bin / 'cpp'
        run([compiler, '-std=c++17', '-O2', '-Wall', '-Wextra', '-I%s' % self.header(), '-I%s' % (TOP / 'include'), HERE / 'face.cpp', self.archives()[0],
             '-o', program])
        return [program, self.messages]

    def python(self):
        self.make('python')
        return [sys.executable, HERE / 'face.py', self.messages]

    def javascript(self):
        node = needed('node', 'nodejs')
        self.make('web')
        # Code is compiled when it is due: beside the calls it would come late on a machine with other work.
        return [node, '--no-concurrent-recompilation', HERE / 'face.mjs', TOP / 'out/web', self.messages]

    def java(self):
        needed('javac', 'openjdk-17-jdk-headless')
        self.make('java')
        jar = TOP / 'out/java/simbegyor-ndef.jar'
        run(['javac', '-cp', jar, '-d', self.folder / 'java', HERE / 'Face.java', HERE / 'Hand.java'])
        return ['java', '-Xbatch', '-cp', '%s:%s' % (jar, self.folder / 'java'), 'Face', self.messages]

    def go(self):
        needed('go', 'golang-go')
        module = self.folder / 'go'
        module.mkdir(exist_ok=True)
        for name in ('face.go', 'hand.go'):
            shutil.copy(HERE / name, module / name)
        (module / 'go.mod').write_text('module face\n\ngo 1.19\n\nrequire simbegyor/ndef v0.0.0\n\nreplace simbegyor/ndef => %s\n' % (TOP / 'bindings/go'))
        run(['go', 'build', '-o', self.bin / 'face-go', '.'], cwd=module,
            env={**os.environ, 'GOFLAGS': '-mod=mod', 'GOPROXY': 'off', 'GOTOOLCHAIN': 'local'})
        return [self.bin / 'face-go', self.messages]

    def page(self):
        needed('chromium', 'chromium')
        node = needed('node', 'nodejs')
        self.make('web')
        return [node, HERE / 'page.mjs', TOP / 'out/web', self.messages]

    def commands(self):
        if self.made_of() == 'crates' and subprocess.run(['make', '-q', '-C', TOP, 'NDEF_FROM=crates', 'out/commands/ndef'], capture_output=True).returncode:
            raise Missing('the commands are not proved and built here')
        self.make('programs')
        return [TOP / 'out/bin/ndef']

    def built(self, names):
        """The words that run each program of these names, and why each of the others is left out."""
        words, left_out = {}, {}
        for name in names:
            try:
                words[name] = getattr(self, name)()
            except Missing as why:
                left_out[name] = str(why)
        return words, left_out


def machine():
    """The processor, the compiler and what else the times depend on, in a line."""
    with open('/proc/cpuinfo', encoding='utf-8') as lines:
        model = next((line.split(':', 1)[1].strip() for line in lines if line.startswith('model name')), platform.machine())
    compiler = run([os.environ.get('CC', 'cc'), '--version']).split('\n')[0]
    return '%s, %s' % (model, compiler)
