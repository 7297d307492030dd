"""The name of the library's file, and what the loader is asked for. The backend that makes the wheel runs this file too."""
import os
import sys


def library_name(platform: str = sys.platform) -> str:
    """The name of the library's file on a platform, as sys.platform names it. Python takes none of them for a module of its own."""
    if platform in ('win32', 'cygwin'):
        return 'ndef.dll'
    return 'libndef.dylib' if platform == 'darwin' else 'libndef.so.1'


def asked_for(path: str) -> str:
    """What the loader is asked for to load the library's file. Debian has a link there, to the shared library that all programs
    use: the loader is asked for that by its name, and takes the one for this processor of several."""
    name = os.path.basename(os.readlink(path)) if os.path.islink(path) else ''
    return name if name.startswith('libsimbegyor-ndef.so.') else path
