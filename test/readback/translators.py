"""The translators of ports/ as a module of Python, also with a fault in one of them."""
import pathlib
import sys
import types

PORTS = pathlib.Path(__file__).resolve().parents[2] / 'ports'


def loaded(file='', old='', new=''):
    """What translate.py and retarget.py define, where one place of a file says another thing."""
    made = {}
    for name in ('module_text', 'c_helpers', 'c_text', 'translate', 'retarget'):
        text = (PORTS / f'{name}.py').read_text(encoding='utf-8')
        if file == f'{name}.py':
            if text.count(old) != 1:
                raise ValueError(f'{file} has `{old}` {text.count(old)} times')
            text = text.replace(old, new)
        made[name] = sys.modules[name] = types.ModuleType(name)
        made[name].__file__ = str(PORTS / f'{name}.py')
        exec(compile(text, f'{name}.py', 'exec'), vars(made[name]))
    taken = {'translate': ('translated', 'translated_program'), 'retarget': ('retargeted', 'with_numbers_kept', 'PROCESSORS'), 'module_text': ('Unknown',)}
    return types.SimpleNamespace(**{name: getattr(made[module], name) for module, names in taken.items() for name in names})
