"""This module under the name of nfcpy's ndeflib, `ndef`: only where a program asks for it, since both may be installed."""
from __future__ import annotations

import sys


def install_as_ndef() -> None:
    """Lets `import ndef` give this module, and `import ndef.record` its module `record`, and so on, for programs that are
    written for ndeflib. It has to be called before anything imports ndeflib; calling it again changes nothing.

    ImportError where another module `ndef`, or one within it, has been imported; then nothing is changed.
    """
    own = __name__.partition('.')[0]
    modules = {'ndef' + name[len(own):]: module for name, module in sys.modules.items() if (name + '.').startswith(own + '.')}
    for name, module in list(sys.modules.items()):
        if (name + '.').startswith('ndef.') and modules.get(name) is not module:
            raise ImportError('%s has been imported from %s: call simbegyor_ndef.install_as_ndef() before anything imports it'
                              % (name, getattr(module, '__file__', None) or 'elsewhere'), name=name)
    sys.modules.update(modules)
