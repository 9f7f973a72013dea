"""The disk: files of an office are for its account alone, and synced; what failed with one, in words."""
import contextlib, errno, fcntl, hashlib, os, subprocess

FULL = (errno.ENOSPC, errno.EDQUOT)


def digest_of(data):
    return hashlib.sha256(data).hexdigest()


def digest_in(path):
    """The SHA-256 of a file; None where there is none to be read."""
    with contextlib.suppress(OSError, TypeError), open(path, 'rb') as file:
        return hashlib.file_digest(file, 'sha256').hexdigest()


def opened(path):
    """A file that only grows, for this account alone."""
    file = os.open(path, os.O_WRONLY | os.O_CREAT | os.O_APPEND, 0o600)
    os.fchmod(file, 0o600)
    return file


def put(path, data):
    """Writes a new file for this account alone, and waits until it is on the disk."""
    try:
        with os.fdopen(os.open(path, os.O_WRONLY | os.O_CREAT | os.O_EXCL, 0o600), 'wb') as file:
            file.write(data)
            file.flush()
            os.fsync(file.fileno())
    except OSError as why:
        why.filename = path
        raise


def put_over(path, data):
    """Puts a whole file in the place of the old one, for this account alone."""
    with contextlib.suppress(FileNotFoundError):
        os.remove(f'{path}.new')
    put(f'{path}.new', data)
    os.replace(f'{path}.new', path)


@contextlib.contextmanager
def alone(folder):
    """Has a folder alone, and at the end waits until its names are on the disk."""
    number = os.open(folder or '.', os.O_RDONLY | os.O_DIRECTORY)
    try:
        fcntl.flock(number, fcntl.LOCK_EX)
        yield
        os.fsync(number)
    finally:
        os.close(number)


def named(path):
    """The disk on which a file is, in words by which it can be found, and the file's folder."""
    folder = os.path.dirname(os.path.abspath(path))
    while not os.path.isdir(folder):
        folder = os.path.dirname(folder)
    command = ['df', '-h', '--output=source,fstype,avail,target', folder]
    told = subprocess.run(command, capture_output=True, text=True).stdout.splitlines()
    source, kind, free, place = (told or [''])[-1].split(None, 3) or ['?'] * 4
    return f'the disk that is mounted at {place} ({source}, {kind}, free: {free}) and has the folder {folder}'


def words_of(why):
    """What failed, in words; where a disk is full, with its name."""
    if not (isinstance(why, OSError) and why.filename):
        return str(why)
    return f'{why.filename}: {why.strerror}' + f'. Make room on {named(why.filename)}' * (why.errno in FULL)
