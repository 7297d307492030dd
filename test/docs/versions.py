#!/usr/bin/env python3
"""Where another version stands than in VERSION. After a release VERSION moves on, and crates/ and include/ keep the
release's version until they change. As a program it prints what is wrong, and ends with 1 where anything is; with
--of-commands it prints the version of the commands in out/bin."""
import pathlib
import re
import subprocess
import sys

TOP = pathlib.Path(__file__).resolve().parents[2]


def of_dist():
    """What dist/SOURCE says, by the first words of its lines."""
    source = TOP / 'dist/SOURCE'
    return dict(line.split(' ', 1) for line in source.read_text().splitlines()) if source.exists() else {}


def of_sources(version):
    """The version that crates/ and include/ are to have: that of dist/ where it is made of them, else VERSION's."""
    here = subprocess.run([TOP / 'packaging/tree_hash'], capture_output=True, text=True).stdout.strip()
    return of_dist()['version'] if of_dist().get('crates') == here else version


def is_of_dist():
    """Whether what is made in out/ is made of dist/."""
    return (TOP / 'out/from').read_text() == 'dist\n'


def of_commands():
    """The version that the commands in out/bin print."""
    return of_dist()['version'] if is_of_dist() else of_sources((TOP / 'VERSION').read_text().strip())


def wrong():
    version = (TOP / 'VERSION').read_text()
    if not re.fullmatch(r'\d+\.\d+\.\d+(\.dev)?\n', version):
        yield f'VERSION holds {version!r}'
    version = version.strip()
    sources, cargo, maven = of_sources(version), version.replace('.dev', '-dev'), version.replace('.dev', '-SNAPSHOT')
    man = {f'packaging/man/{name}.1': '\nThis page is of Simbegyor @VERSION@,' for name in ('ndef', 'ndef-make', 'ndef-explain')}
    wanted = {'Makefile': '$(shell cat VERSION)', **man,
              'packaging/c/ndef.pc.in': 'Version: @VERSION@', 'packaging/debian/one/control.in': 'Version: @VERSION@',
              'bindings/python/METADATA.in': 'Version: @VERSION@', 'packaging/npm/package.json.in': '"version": "@VERSION@"',
              'CHANGELOG.md': '\n## Unreleased\n' if version.endswith('.dev') else f'\n## {version} - ',
              'bindings/java/pom.xml': f'\n  <version>{maven}</version>\n', 'bindings/java/build.gradle.kts': f'\nversion = "{maven}"\n',
              'bindings/rust/Cargo.toml': f'\nversion = "{cargo}"\n',
              **dict.fromkeys(('bindings/rust/Cargo.lock', 'test/fuzz/rust/Cargo.lock'), f'name = "simbegyor-ndef"\nversion = "{cargo}"\n'),
              'crates/ndef_cli_make/src/pages.rt': f'b"ndef-make {sources}\\n"',
              'crates/ndef_cli_explain/src/pages.rt': f'b"ndef-explain {sources}\\n"'}
    for path, text in wanted.items():
        if text not in (TOP / path).read_text():
            yield f'{path} has no {text!r}'
    for path, pattern in (('include/ndef.h', r'#define NDEF_VERSION_{} (\d+)\n'),
                          ('crates/ndef_c/src/version.rt', r'pub const {}: u32 = (\d+);')):
        text = (TOP / path).read_text()
        numbers = [number for name in ('MAJOR', 'MINOR', 'PATCH') for number in re.findall(pattern.format(name), text)]
        if '.'.join(numbers) != sources.removesuffix('.dev'):
            yield f'{path} has {numbers}'
    module = TOP / 'out/python/simbegyor_ndef/__init__.py'
    made = of_dist()['version'] if module.exists() and is_of_dist() else version
    if module.exists() and f"__version__ = '{made.replace('.dev', '.dev0')}'" not in module.read_text():
        yield 'out/python has another version: make python makes it again'


if __name__ == '__main__':
    if sys.argv[1:] == ['--of-commands']:
        print(of_commands())
        sys.exit()
    found = list(wrong())
    print(*found, sep='\n')
    sys.exit(bool(found))
