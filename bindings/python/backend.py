"""Makes the wheel and the source distribution of the module, for pip and build (PEP 517). It needs a C compiler and no
package of Python's. setuptools, flit and hatch would be fetched before each `pip install .`. The shared object doesn't use Python,
so one wheel serves every Python 3 of a machine. Its tag is manylinux2014 where it needs no newer C library than glibc 2.17, and
musllinux where it needs musl; both are read in the object, so a cross compiler makes wheels for other machines.

The shared object in the wheel is compiled of dist/ndef.c; or it is linked of the archive libndef.a in the folder that
NDEF_LIB_DIR names. CC names the compiler, CFLAGS its flags. The same files with the same compiler make the same wheel;
its times are SOURCE_DATE_EPOCH's. NDEF_HOME is the address at which others see the files of this repository: the wheel's
data name it, and links of README.md lead there.
"""
import base64
import gzip
import hashlib
import io
import os
import pathlib
import re
import runpy
import shlex
import shutil
import subprocess
import sys
import sysconfig
import tarfile
import tempfile
import time
import urllib.parse
import zipfile
from typing import Any, Dict, Iterator, List, NoReturn, Optional, Tuple

# Files by their names in an archive; and what pip is asked for, which this backend has no use for.
Files = Iterator[Tuple[str, bytes]]
Settings = Optional[Dict[str, Any]]

HERE = pathlib.Path(__file__).resolve().parent
# In the source distribution all files lie here; in the repository some lie above.
TOP = HERE if (HERE / 'VERSION').exists() else HERE.parents[1]
LICENSES = ('LICENSE-MIT', 'LICENSE-APACHE')
GENERATED = ('dist/ndef.c', 'dist/SOURCE')
# The module looks for the library by this name.
LIBRARY: str = runpy.run_path(str(HERE / 'simbegyor_ndef/_platform.py'))['library_name']()
# The machines that a wheel is tagged for by the code in it: their numbers in the header of an ELF file.
MACHINES = {b'\x03\0': 'i686', b'\x3e\0': 'x86_64', b'\xb7\0': 'aarch64'}
# The command that pip puts on the path.
SCRIPTS = '[console_scripts]\nsimbegyor-ndef = simbegyor_ndef.__main__:main\n'


def stop(why: str) -> NoReturn:
    sys.exit('simbegyor-ndef: ' + why)


def version() -> str:
    """The version as Python writes it: that of dist/ where the library is compiled of that."""
    text = (TOP / 'VERSION').read_text().strip()
    source = TOP / 'dist/SOURCE'
    if source.exists() and (os.environ.get('NDEF_FROM') == 'dist' or not os.environ.get('NDEF_LIB_DIR')):
        text = source.read_text().split()[1]
    return text + '0' if text.endswith('.dev') else text


NAME = 'simbegyor_ndef-' + version()


def moment() -> int:
    """The time that files in archives get, in seconds since 1970; a zip file can't hold one before 1980."""
    epoch = os.environ.get('SOURCE_DATE_EPOCH') or '0'
    if not re.fullmatch('[0-9]+', epoch) or int(epoch) >= 1 << 32:
        stop('SOURCE_DATE_EPOCH is a number of seconds since 1970, and not %r' % epoch)
    return max(int(epoch), 315532800)


def absolute(page: str, home: str) -> str:
    """README.md for readers who have no other file: its links lead to the address, or where there is none, are text."""
    def link(found: 're.Match[str]') -> str:
        text, target = found.groups()
        if re.match('#|[a-z]+:', target):
            return found.group()
        return '[%s](%s)' % (text, urllib.parse.urljoin(home + '/bindings/python/', target)) if home else text
    return re.sub(r'\[([^\]]*)\]\(([^)\s]+)\)', link, page)


def metadata() -> bytes:
    head = (HERE / 'METADATA.in').read_text(encoding='utf-8').replace('@VERSION@', version())
    home = os.environ.get('NDEF_HOME', '').rstrip('/')
    for label, path in (('Homepage', ''), ('Changelog', '/CHANGELOG.md'), ('Documentation', '/bindings/python/README.md')) if home else ():
        head += 'Project-URL: %s, %s%s\n' % (label, home, path)
    return (head + '\n' + absolute((HERE / 'README.md').read_text(encoding='utf-8'), home)).encode()


def modules() -> Files:
    """The files of the module by their names in the wheel."""
    for path in sorted((HERE / 'simbegyor_ndef').glob('*')):
        if path.suffix in ('.py', '.typed'):
            yield 'simbegyor_ndef/' + path.name, path.read_bytes().replace(b'@VERSION@', version().encode())


def headers() -> List[str]:
    return sorted(path.name for path in (TOP / 'dist').glob('ndef*.h'))


def check_generated() -> None:
    """Stops where a file of dist/ isn't the one that dist/SOURCE names."""
    if not all((TOP / name).exists() for name in GENERATED):
        stop('dist/ is missing: take it from the release, or set NDEF_LIB_DIR to a folder with libndef.a')
    wanted = (TOP / 'dist/SOURCE').read_text().split('\n')
    for name in ('ndef.c', *headers()):
        if '%s  %s' % (hashlib.sha256((TOP / 'dist' / name).read_bytes()).hexdigest(), name) not in wanted:
            stop("dist/%s isn't the file whose SHA-256 is in dist/SOURCE: take dist/ from the release again, as by "
                 "'git checkout dist'" % name)


def compiler() -> List[str]:
    usual = [[name] for name in ('cc', 'gcc', 'clang') if shutil.which(name)]
    words = shlex.split(os.environ.get('CC', '')) or (usual + [['cc']])[0]
    if not shutil.which(words[0]):
        stop("there is no C compiler %s on the path: install one, as by 'apt install gcc', or name it with CC"
             % words[0])
    return words


def linking(platform: str, archive: Optional[str] = None) -> List[str]:
    """The compiler's words that make a shared object on a platform, as sys.platform names it, of a source or of an
    archive."""
    words = ['-shared'] if platform in ('win32', 'cygwin') else ['-fPIC', '-shared']
    if platform == 'linux':
        words += ['-s', '-Wl,-z,defs', '-Wl,-z,relro', '-Wl,-z,now', '-Wl,--build-id=none']
    if not archive:
        return words
    return words + (['-Wl,-force_load,' + archive] if platform == 'darwin' else
                    ['-Wl,--whole-archive', archive, '-Wl,--no-whole-archive'])


def make_library(file: pathlib.Path) -> None:
    """Compiles the shared object."""
    words = [*compiler(), '-std=c99', *shlex.split(os.environ.get('CFLAGS', '-O2'))]
    folder = os.environ.get('NDEF_LIB_DIR')
    if not folder:
        check_generated()
        words += [*linking(sys.platform), str(TOP / 'dist/ndef.c')]
    elif (pathlib.Path(folder) / 'libndef.a').exists():
        words += linking(sys.platform, str(pathlib.Path(folder) / 'libndef.a'))
    else:
        stop('NDEF_LIB_DIR is %s, which has no libndef.a: unset it, and the library is compiled' % folder)
    if subprocess.run([*words, '-o', str(file)]).returncode != 0:
        stop("%s doesn't compile the library, as it says above: name another C compiler with CC" % words[0])


def machine_of(code: bytes) -> str:
    """The machine that an ELF file of Linux is for; it is that of this Python, unless the file is for one of these."""
    if code[18:20] in MACHINES:
        return 'linux_' + MACHINES[code[18:20]]
    if code[18:20] != pathlib.Path(sys.executable).read_bytes()[18:20]:
        stop('a wheel can be made for another machine where that is one of ' + ', '.join(MACHINES.values()))
    return sysconfig.get_platform().replace('-', '_').replace('.', '_')


def platform_tag(library: pathlib.Path) -> str:
    """The platform of a wheel: musllinux where the shared object needs only musl, and manylinux2014 where it needs only the GNU C library,
    and of that no call newer than 2.17."""
    code = library.read_bytes()
    machine = machine_of(code) if sys.platform == 'linux' else sysconfig.get_platform().replace('-', '_').replace('.', '_')
    needed = set(re.findall(rb'\0([\w.+-]+\.so[.\d]*)(?=\0)', code))
    versions = [tuple(map(int, number.split(b'.'))) for number in re.findall(rb'\0GLIBC_([\d.]+)(?=\0)', code)]
    is_known = machine in ('linux_x86_64', 'linux_i686', 'linux_aarch64', 'linux_armv7l')
    if is_known and needed and all(re.fullmatch(rb'libc\.(so|musl-\w+\.so\.1)', name) for name in needed):
        return machine.replace('linux', 'musllinux_1_1')
    if not is_known or needed - {b'libc.so.6'} or max(versions, default=()) > (2, 17):
        return machine
    return machine.replace('linux', 'manylinux2014') + '.' + machine.replace('linux', 'manylinux_2_17')


def wheel_data(tag: str) -> Files:
    """The files of the wheel's folder of data, but the list of all files. One tag stands for each platform."""
    folder = NAME + '.dist-info/'
    tags = ''.join('Tag: py3-none-%s\n' % platform for platform in tag.split('.'))
    yield folder + 'METADATA', metadata()
    yield folder + 'entry_points.txt', SCRIPTS.encode()
    yield folder + 'WHEEL', ('Wheel-Version: 1.0\nGenerator: simbegyor-ndef\nRoot-Is-Purelib: false\n' + tags).encode()
    for name in LICENSES:
        yield folder + 'licenses/' + name, (TOP / name).read_bytes()


def record_line(name: str, content: bytes) -> str:
    digest = base64.urlsafe_b64encode(hashlib.sha256(content).digest()).rstrip(b'=').decode()
    return '%s,sha256=%s,%d\n' % (name, digest, len(content))


def build_wheel(wheel_directory: str, config_settings: Settings = None, metadata_directory: Optional[str] = None) -> str:
    with tempfile.TemporaryDirectory() as folder:
        library = pathlib.Path(folder, LIBRARY)
        make_library(library)
        tag, code = platform_tag(library), library.read_bytes()
    return written_wheel(wheel_directory, tag, dict([*modules(), ('simbegyor_ndef/' + LIBRARY, code), *wheel_data(tag)]))


def build_editable(wheel_directory: str, config_settings: Settings = None, metadata_directory: Optional[str] = None) -> str:
    """A wheel that leads to the module where it lies, for `pip install -e`; the shared object is put beside it."""
    library = HERE / 'simbegyor_ndef' / LIBRARY
    make_library(library)
    tag = platform_tag(library)
    return written_wheel(wheel_directory, tag, {'simbegyor_ndef.pth': (str(HERE) + '\n').encode(), **dict(wheel_data(tag))})


def written_wheel(wheel_directory: str, tag: str, files: Dict[str, bytes]) -> str:
    """Writes a wheel of these files, and returns its name."""
    listed = ''.join(record_line(name, files[name]) for name in sorted(files))
    record = NAME + '.dist-info/RECORD'
    wheel = '%s-py3-none-%s.whl' % (NAME, tag)
    with zipfile.ZipFile(pathlib.Path(wheel_directory, wheel), 'w', zipfile.ZIP_DEFLATED) as made:
        for name, content in [*sorted(files.items()), (record, (listed + record + ',,\n').encode())]:
            entry = zipfile.ZipInfo(name, time.gmtime(moment())[:6])
            entry.compress_type = zipfile.ZIP_DEFLATED
            entry.external_attr = (0o755 if name.endswith('/' + LIBRARY) else 0o644) << 16
            made.writestr(entry, content)
    return wheel


def prepare_metadata_for_build_editable(metadata_directory: str, config_settings: Settings = None) -> str:
    return prepare_metadata_for_build_wheel(metadata_directory, config_settings)


def prepare_metadata_for_build_wheel(metadata_directory: str, config_settings: Settings = None) -> str:
    for name, content in wheel_data('any'):
        path = pathlib.Path(metadata_directory, name)
        path.parent.mkdir(parents=True, exist_ok=True)
        path.write_bytes(content)
    return NAME + '.dist-info'


def sources() -> Files:
    """The files of the source distribution, which make the wheel anywhere."""
    check_generated()
    yield 'PKG-INFO', metadata()
    for name in ('README.md', 'METADATA.in', 'backend.py'):
        yield name, (HERE / name).read_bytes()
    yield 'pyproject.toml', (TOP / 'pyproject.toml').read_bytes().replace(b'["bindings/python"]', b'["."]')
    for path in (HERE / 'simbegyor_ndef').glob('*'):
        if path.suffix in ('.py', '.typed'):
            yield 'simbegyor_ndef/' + path.name, path.read_bytes()
    for name in ('VERSION', *LICENSES, *GENERATED, *('dist/' + name for name in headers())):
        yield name, (TOP / name).read_bytes()


def build_sdist(sdist_directory: str, config_settings: Settings = None) -> str:
    packed = io.BytesIO()
    with tarfile.open(fileobj=packed, mode='w', format=tarfile.PAX_FORMAT) as made:
        for name, content in sorted(sources()):
            entry = tarfile.TarInfo(NAME + '/' + name)
            entry.size, entry.mode, entry.mtime = len(content), 0o644, moment()
            made.addfile(entry, io.BytesIO(content))
    path = pathlib.Path(sdist_directory, NAME + '.tar.gz')
    with path.open('wb') as file, gzip.GzipFile('', 'wb', 9, file, moment()) as gz:
        gz.write(packed.getvalue())
    return path.name
