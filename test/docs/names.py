"""Links of a page, and the names of files, functions and definitions in it."""
import functools
import re

CODE = ('*.rt', '*.antt', '*.py', '*.h', '*.c', '*.hpp', '*.cpp', '*.rs', '*.go', '*.java', '*.js', '*.mjs', '*.ts', '*.map', 'ndef', 'ndef-make', 'ndef-explain', 'Makefile', '*.sh',
        'crates.txt', 'run', 'release', 'Cargo.toml')
# Names of Rust's, of C's, of the kit's, of Debian's packages and of ndeflib's classes that pages use, and placeholders.
FOREIGN = set('''
    rt git apt make dpkg-dev lintian clang ctypes clap cc strip simdutf8 hex itoa arrayvec smallvec byteorder thiserror anyhow
    FetchContent add_subdirectory BUILD_SHARED_LIBS CMAKE_POSITION_INDEPENDENT_CODE subprojects REQUIRES npm requires ensures after_borrow Copy Display Eq Hash PartialEq QNdefMessage Sig
    try_grow ArrayString ERR_REQUIRE_ESM mandoc pkg-config help ndeflib type nodejs qemu-user cargo rustdoc rustfmt clippy serde
    gcc-riscv64-linux-gnu gcc-arm-linux-gnueabihf gcc-arm-none-eabi gcc-mingw-w64-x86-64-win32 gcc-aarch64-linux-gnu
    BluetoothEasyPairingRecord BluetoothLowEnergyRecord WifiSimpleConfigRecord WifiPeerToPeerRecord DeviceInformationRecord
    SignatureRecord HandoverMediationRecord HandoverInitiateRecord
'''.split())
# Names that releases before this one had, and the pages that may speak of them.
FORMER = set('''
    simbegyor-ndef-sys NDEF_WRITE_ NDEF_OLD_NAMES with_pieces UsualLimits FieldRemark usualLimits fieldRemark recordRemark ndef_advice over with NO_ROOM
    told lacks
'''.split())
HISTORY = ('CHANGELOG.md', 'UPGRADING.md')


def slug(heading):
    text = re.sub(r'[`*]|\[|\]\([^)]*\)', '', heading.strip().lower())
    return re.sub(r'[^\w\- ]', '', text).replace(' ', '-')


def without_blocks(text):
    return re.sub(r'^```.*?^```$', '', text, flags=re.M | re.S)


@functools.cache
def anchors(path):
    """The headings of a page, and the anchors that it gives its rows."""
    text = without_blocks(path.read_text())
    return {slug(heading) for heading in re.findall(r'^#+ (.*)$', text, re.M)} | set(re.findall(r'<a id="([\w-]+)">', text))


@functools.cache
def lines(path):
    return path.read_text().split('\n')


def moved_links(page):
    """The links of names to lines that lack the name."""
    for name, path, line in re.findall(r'\[`(\w[\w:]*)(?:\(\)|: [^`]*)?`\]\(([^()\s#]+)#L(\d+)\)', page.read_text()):
        file = (page.parent / path).resolve()
        if file.exists() and not re.search(rf'\b{name.split("::")[-1]}\b', ''.join(lines(file)[int(line) - 1:int(line)])):
            yield f'{path}#L{line}: the line lacks {name}'


def broken_links(top, page):
    text = re.sub(r'`[^`\n]*`', lambda code: code.group().replace('](', '] ('), without_blocks(page.read_text()))
    for target in re.findall(r'\]\(([^)\s]+)\)', text):
        if re.match(r'[a-z]+:', target):
            continue
        path, _, anchor = target.partition('#')
        file = (page.parent / path).resolve() if path else page
        if not file.exists():
            yield f'{target}: no such file'
        elif re.fullmatch(r'L\d+', anchor):
            if int(anchor[1:]) >= len(lines(file)):
                yield f'{target}: no such line'
        elif anchor and anchor not in anchors(file):
            yield f'{target}: no such heading'


def known(top):
    """The words of all code and scripts, the names of wrong bodies, and the paths of all files."""
    files = [path for path in top.rglob('*') if path.is_file() and not {'out', '.git'} & set(path.relative_to(top).parts)]
    paths = {str(path.relative_to(top)) for path in files}
    words = {path.stem for path in files} | {folder for path in paths for folder in path.split('/')[:-1]}
    words |= {name for path in files if path.suffix == '.edits' for name in re.findall(r'^\[(\w+)\]$', path.read_text(), re.M)}
    for path in files:
        # The names in generated code say nothing.
        if any(path.match(pattern) for pattern in CODE) and 'dist' not in path.relative_to(top).parts:
            words.update(re.findall(r'[\w-]+', path.read_text(errors='replace')))
            words.update(re.findall(r'\w+', path.read_text(errors='replace')))
    return words, paths


def is_file_there(name, paths):
    """Whether a file or folder has the name, which may begin in any folder."""
    name = name.removeprefix('./').rstrip('/')
    end = re.compile('(^|/)' + re.escape(name).replace(r'\*', '[^/]*') + '(/|$)')
    return any(end.search(path) for path in paths)


def unknown(top, page, known_names):
    words, paths = known_names
    other = FOREIGN | (FORMER if page.name in HISTORY else set())
    for code in re.findall(r'`([^`\n]+)`', without_blocks(page.read_text())):
        if re.fullmatch(r'[\w./*-]+\.(rt|antt|md|h|c|py|rs|txt|edit|in|so)|[\w.*-]+(/[\w.*-]+)*/', code):
            if not is_file_there(code, paths) and not re.search(r'signature|[A-Z]{4}|/out', code, re.I) and 'out' not in code:
                yield f'{code}: no such file'
        elif re.fullmatch(r'[A-Za-z_][\w-]*(::\w+)*(\(\))?', code):
            last = re.split('::', code.removesuffix('()'))[-1]
            if last not in words and last not in other and len(last) > 2:
                yield f'{code}: no such name'
