"""The settings of an office: a file OFFICE.toml in place of options, so that each morning has one command."""
import os, re, tomllib

# What each key has; a name that clerks type may be one text or several. At most so many bytes and names.
KEYS = {'file': str, 'journal': str, 'clerks': str, 'roll': str, 'min': int, 'listen': str, 'name': list,
        'certificate': str, 'key': str, 'backup': str, 'backup-every': int, 'title': str, 'language': str,
        'currency': str, 'count': str, 'program': str, 'keep-file-ballots': bool}
PATHS = ('file', 'journal', 'clerks', 'roll', 'certificate', 'key', 'backup', 'language')
NEEDED, LARGEST, NAMES = ('file', 'journal', 'clerks'), 65536, 64
KINDS = {str: 'a text in quotation marks', int: 'a whole number, 0 or more', bool: 'true or false',
         list: 'a text in quotation marks, or a list of such texts'}


def load(path):
    """The settings of a file, by their keys. A ValueError says what is wrong in words, with the key's name."""
    try:
        with open(path, 'rb') as file:
            text = file.read(LARGEST + 1)
        if len(text) > LARGEST:
            raise ValueError(f'it has more than {LARGEST} bytes')
        found = tomllib.loads(text.decode())
    except (OSError, ValueError, RecursionError) as why:
        raise ValueError(f'{path} cannot be read as settings: {why}') from None
    faults = [fault_of(key, value) for key, value in found.items()]
    faults += [f'the key {key} is missing' for key in NEEDED if key not in found]
    for fault in filter(None, faults):
        raise ValueError(f'{path}: {fault}')
    return found


def fault_of(key, value):
    """What is wrong with a setting, in words, or None."""
    if key not in KEYS:
        return f'there is no setting {ascii(key)}; the settings are {", ".join(KEYS)}'
    texts = value if KEYS[key] is list and isinstance(value, list) else [value]
    wanted = str if KEYS[key] is list else KEYS[key]
    if not texts or any(type(it) is not wanted for it in texts) or (wanted is int and value < 0):
        return f'the setting {key} is {KINDS[KEYS[key]]}'
    if len(texts) > NAMES:
        return f'the setting {key} has more than {NAMES} texts'
    if wanted is str and not all(it.strip() and it.isprintable() for it in texts):
        return f'the setting {key} is empty, or has a line end or another character that cannot be seen'
    if wanted is str and any(re.search('[<>]', it) for it in texts):
        return f'the setting {key} has < or >, which belong to markup'


def arguments_of(path, found):
    """The arguments that say the same as the settings of a file. Its paths begin at its own folder."""
    for key in PATHS:
        if key in found:
            found[key] = os.path.join(os.path.dirname(path), found[key])
    names = [found.pop('file'), found.pop('journal')]
    options = [f"--{'cert' if key == 'certificate' else key}" + f'={it}' * (it is not True) for key, value in found.items()
               for it in (value if isinstance(value, list) else [value]) if it is not False]
    return options, names
