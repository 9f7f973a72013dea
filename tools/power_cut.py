"""What a power cut leaves of a program's files: a C library that writes down what a run does to them, and the disks that may be
left of that."""
import collections, struct

Event = collections.namedtuple('Event', 'what file at bytes')

SHIM = r'''
#define _GNU_SOURCE
#include <dlfcn.h>
#include <errno.h>
#include <fcntl.h>
#include <signal.h>
#include <stdarg.h>
#include <stdint.h>
#include <stdlib.h>
#include <string.h>
#include <sys/mman.h>
#include <sys/stat.h>
#include <sys/syscall.h>
#include <unistd.h>

/* What is written down of a call: o opened and perhaps made, w written, c cut, s synced, r renamed, a answered; the file, j the
   journal, t what is kept beside, f what says which file it belongs to, both under their first names, d a folder; where it was written, or how long the file became; and how many bytes follow. */
struct event { char what, file; char pad[6]; int64_t at, size; };

static struct { long calls, refused, allocations; } *seen;
static char files[1024], kind;
static long nth, counted;
static int events = -1;

__attribute__((constructor)) static void begin(void) {
    int map = open(getenv("CRASH_SEEN"), O_RDWR);
    seen = mmap(0, 4096, PROT_READ | PROT_WRITE, MAP_SHARED, map, 0);
    close(map);
    map = open(getenv("CRASH_EVENTS"), O_WRONLY | O_APPEND);
    events = fcntl(map, F_DUPFD, 900);
    close(map);
    kind = *getenv("CRASH");
    nth = atol(getenv("CRASH") + 1);
    files[1] = 'a';
}

static char file_of(int file) { return file >= 0 && file < 1024 ? files[file] : 0; }

/* Writes a call down; the nth one ends the program before it is made, with 'k'. */
static void note(char what, char file, int64_t at, const void *bytes, int64_t size) {
    struct event event = {what, file, {0}, at, size};
    syscall(SYS_write, events, &event, sizeof event);
    if (size) syscall(SYS_write, events, bytes, size);
    if (++seen->calls == nth && kind == 'k') syscall(SYS_kill, syscall(SYS_getpid), SIGKILL);
}

/* Whether this call of those that this letter names is refused: the nth one, or in capitals each from the nth on. */
static int meets(char letter) {
    if ((kind | 32) != letter) return 0;
    counted++;
    int is_met = kind == letter ? counted == nth : counted >= nth;
    if (is_met) seen->refused++;
    return is_met;
}

static int fails(char letter, int with) {
    if (meets(letter)) { errno = with; return 1; }
    if (meets('i')) { errno = EINTR; return 1; }
    return 0;
}

/* The file that a path names. */
static char named(const char *path) {
    size_t length = strlen(path);
    return length > 9 && !strcmp(path + length - 9, ".torn.new") ? 't'
        : length > 9 && !strcmp(path + length - 9, ".file.new") ? 'f'
        : length > 8 && !strcmp(path + length - 8, ".journal") ? 'j' : 0;
}

static int opened(int folder, const char *path, int flags, mode_t mode) {
    char file = named(path);
    if (file && (flags & O_CREAT)) {
        if (fails('o', EACCES)) return -1;
        note('o', file, (flags & O_TRUNC) != 0, 0, 0);
    }
    if (!file && (flags & O_CREAT)) {
        /* p is a result that has not got its name yet, k the text of a moved journal. */
        file = strstr(path, ".journal.kept") ? 'k' : strstr(path, ".part") ? 'p' : 0;
        if (file) note('o', file, 0, 0, 0);
    }
    int fd = syscall(SYS_openat, folder, path, flags, mode);
    struct stat stat;
    if (fd >= 0 && !file && !fstat(fd, &stat) && S_ISDIR(stat.st_mode)) file = 'd';
    if (fd >= 0 && fd < 1024) files[fd] = file;
    return fd;
}

#define MODE(flags) ({ va_list rest; va_start(rest, flags); mode_t it = va_arg(rest, mode_t); va_end(rest); it; })

int open(const char *path, int flags, ...) { return opened(AT_FDCWD, path, flags, flags & O_CREAT ? MODE(flags) : 0); }
int open64(const char *path, int flags, ...) { return opened(AT_FDCWD, path, flags, flags & O_CREAT ? MODE(flags) : 0); }
int openat(int in, const char *path, int flags, ...) { return opened(in, path, flags, flags & O_CREAT ? MODE(flags) : 0); }
int openat64(int in, const char *path, int flags, ...) { return opened(in, path, flags, flags & O_CREAT ? MODE(flags) : 0); }

/* How many bytes a write takes, or -1. */
static ssize_t taken(char file, int64_t at, const void *from, size_t size) {
    if (file == 'a') {
        if (fails('x', EPIPE)) return -1;
        note('a', 0, 0, from, size);
        return size;
    }
    if (fails('w', EIO) || fails('f', ENOSPC)) return -1;
    if (size > 1 && meets('p')) size = 1;
    note('w', file, at, from, size);
    return size;
}

ssize_t write(int to, const void *from, size_t size) {
    char file = file_of(to);
    if (file && file != 'd') {
        ssize_t some = taken(file, file == 'a' ? 0 : syscall(SYS_lseek, to, 0, SEEK_CUR), from, size);
        if (some < 0) return -1;
        size = some;
    }
    return syscall(SYS_write, to, from, size);
}

ssize_t __write(int to, const void *from, size_t size) { return write(to, from, size); }

ssize_t pwrite(int to, const void *from, size_t size, off_t at) {
    ssize_t some = file_of(to) ? taken(file_of(to), at, from, size) : (ssize_t) size;
    return some < 0 ? -1 : syscall(SYS_pwrite64, to, from, some, at);
}

ssize_t pwrite64(int to, const void *from, size_t size, off_t at) { return pwrite(to, from, size, at); }

int ftruncate(int fd, off_t size) {
    if (file_of(fd)) {
        if (fails('c', EIO)) return -1;
        note('c', file_of(fd), size, 0, 0);
    }
    return syscall(SYS_ftruncate, fd, size);
}

int ftruncate64(int fd, off_t size) { return ftruncate(fd, size); }

/* Of a sync the number of the file is written down. */
static int synced(int fd) {
    if (!file_of(fd)) return 0;
    if (file_of(fd) != 'd' && fails('s', EIO)) return -1;
    struct stat stat;
    note('s', file_of(fd), fstat(fd, &stat) ? 0 : stat.st_ino, 0, 0);
    return 0;
}

/* The disk is that of the list: here the calls need not wait for the machine's. */
int fsync(int fd) { return synced(fd); }
int fdatasync(int fd) { return synced(fd); }

int rename(const char *from, const char *to) {
    if (meets('r')) { errno = EIO; return -1; }
    note('r', named(from), 0, 0, 0);
    return syscall(SYS_rename, from, to);
}

int flock(int fd, int how) {
    if (fails('l', ENOLCK)) return -1;
    return syscall(SYS_flock, fd, how);
}

extern void *__libc_malloc(size_t), *__libc_realloc(void *, size_t);

void *malloc(size_t size) {
    if (seen && meets('m')) { errno = ENOMEM; return 0; }
    return __libc_malloc(size);
}

void *realloc(void *block, size_t size) {
    if (seen && meets('m')) { errno = ENOMEM; return 0; }
    return __libc_realloc(block, size);
}
'''

def events_of(data):
    """The events that the library has written down."""
    at, found = 0, []
    while at < len(data):
        what, file, place, size = struct.unpack_from('<cc6xqq', data, at)
        at += 24
        found.append(Event(what.decode(), file.decode(), place, data[at:at + size]))
        at += size
    return found


# What may be left past the old end of a file.
LITTER = [b'\n', b'\n\n', b'"', b'\r', b'\r\n', b'\0', b'0', b'1;0;shut;;;done\n', b'3;0;cast;litter;0;done\n', b';']


def torn_write(chance, old, at, new):
    """What a crash may leave of a write: of each byte that was there the old one or the new one, and anything past the end."""
    style = chance.choice(['none', 'whole', 'first', 'last', 'mixed', 'litter', 'zeros'])
    if style == 'none':
        return old
    old += bytes(max(0, at - len(old)))
    whole = old[:at] + new + old[at + len(new):]
    if style == 'whole':
        return whole
    kept = bytearray(whole)
    cut = chance.randint(0, len(new))
    for place in range(at, min(at + len(new), len(old))):
        is_old = {'first': place - at >= cut, 'last': place - at < cut}.get(style, chance.random() < 0.5)
        if is_old:
            kept[place] = old[place]
    if len(whole) == len(old):
        return bytes(kept)
    tail = bytes(kept[len(old):])
    if style == 'first':
        tail = tail[:max(0, at + cut - len(old))]
    elif style == 'last':
        tail = bytes(min(len(tail), max(0, at + cut - len(old)))) + tail[max(0, at + cut - len(old)):]
    elif style == 'zeros':
        tail = bytes(chance.randint(0, len(tail)))
    elif style == 'litter':
        tail = b''.join(chance.choice(LITTER) for _ in tail)[:chance.randint(0, len(tail))]
    else:
        tail = bytes(chance.choice([byte, 0, 10, 34]) for byte in tail)
    return bytes(kept[:len(old)]) + tail


def left_by(chance, events, journal, torn, named, lies=None):
    """What a power cut may leave of the journal, of what is kept beside it and of what names its file, after these events, the
    last of which was begun. `lies` says which of the journal's syncs were none."""
    synced, since, syncs = journal, [], 0
    is_made = is_known = journal is not None
    for event in events[:-1]:
        if event.what == 's' and event.file == 'd':
            is_known = is_made
        elif event.file != 'j':
            continue
        elif event.what == 's':
            syncs += 1
            if not (lies and lies(syncs)):
                synced, since = whole(synced, since), []
        else:
            is_made = True
            since.append(event)
    last = events[-1]
    if last.what in 'wc' and last.file == 'j':
        since.append(last)
    return [part(chance, synced, since, is_known), renamed(chance, events, torn, 't'), renamed(chance, events, named, 'f')]


def renamed(chance, events, old, file):
    """What a power cut may leave under the name of a file that is written under another name first: what stood there, or a new
    file that got the name since the folder was synced last, of which what was not synced may be torn."""
    left, fresh, since = [(old, [])], b'', []
    for at, event in enumerate(events):
        is_begun = at + 1 == len(events)
        if event.file == file and event.what == 'o':
            fresh, since = b'', []
        elif event.file == file and event.what == 'w':
            since = [*since, event]
        elif event.file == file and event.what == 's' and not is_begun:
            fresh, since = whole(fresh, since), []
        elif event.file == file and event.what == 'r':
            left.append((fresh, since))
        elif event.file == 'd' and event.what == 's' and not is_begun:
            left = left[-1:]
    text, torn = chance.choice(left)
    return part(chance, text, torn, True)


def whole(text, events):
    """A file after these events."""
    for event in events:
        text = text or b''
        if event.what == 'o' and event.at:
            text = b''
        elif event.what == 'w':
            text = text[:event.at] + event.bytes + text[event.at + len(event.bytes):]
        elif event.what == 'c':
            text = text[:event.at]
    return text


def part(chance, text, events, is_named):
    """A file after any part of these events; where its folder was not synced it may be missing."""
    if not is_named and chance.random() < 0.3:
        return None
    for event in events:
        text = text or b''
        if event.what == 'o':
            text = text if not event.at or chance.random() < 0.5 else b''
        elif event.what == 'w':
            text = torn_write(chance, text, event.at, event.bytes)
        else:
            text = text[:chance.randint(min(event.at, len(text)), len(text))]
    return text
