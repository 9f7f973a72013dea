"""The programs that make packages and try them: which are missing here, and how they are installed."""
import os, shutil, subprocess

# How many seconds a step of an installation may take.
INSTALLS = 300
# The programs that make a package, and those that try it besides, each with its Debian package.
MAKERS = {'git': 'git', 'dpkg-deb': 'dpkg', 'strip': 'binutils', 'help2man': 'help2man', 'lowdown': 'lowdown'}
ALL = {**MAKERS, 'lintian': 'lintian', 'man': 'man-db', 'bash': 'bash', 'zsh': 'zsh', 'fish': 'fish'}

# The libraries with which pb_clean reads workbooks and guesses encodings, by their Debian packages.
LIBRARIES = ['python3-openpyxl', 'python3-charset-normalizer']


def missing(programs):
    """The Debian packages of those programs that are not there."""
    return [package for program, package in programs.items() if not shutil.which(program)]


def install(*more, programs=ALL):
    """Installs the programs that are missing, and more packages, where this is root and apt-get is there."""
    if os.geteuid() != 0 or not shutil.which('apt-get'):
        return
    environment = {**os.environ, 'DEBIAN_FRONTEND': 'noninteractive'}
    for words in (['update'], ['install', '-y', '--no-install-recommends', *missing(programs), *more]):
        try:
            subprocess.run(['apt-get', '-qq', *words], env=environment, stdin=subprocess.DEVNULL, stdout=subprocess.DEVNULL,
                           stderr=subprocess.DEVNULL, timeout=INSTALLS)
        except subprocess.TimeoutExpired:
            return


def install_libraries():
    """Installs the libraries that are missing, where this runs as root and apt-get is there."""
    lost = [it for it in LIBRARIES if shutil.which('dpkg') and
            subprocess.run(['dpkg', '-s', it], capture_output=True).returncode]
    if lost:
        install(*lost, programs={})


def lack(top):
    """Why no package can be made here, or None."""
    lost = missing(MAKERS)
    if lost:
        return f'there is no {lost[0]}: tools/try_package --install installs it, as root'
    if subprocess.run(['git', 'log', '-1'], cwd=top, capture_output=True).returncode:
        return 'there is no history of git that names the commit'
    return None
