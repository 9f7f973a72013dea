"""Completions for three shells, made from what `--help` prints."""
import collections, re, shlex, subprocess

# A command of a program: its name, what it does, its options, and whether it takes files.
Command = collections.namedtuple('Command', 'name about options takes_files')
# An option: `-o` or nothing, `--output`, the name of its value or nothing, the values that it can have, what it does.
Option = collections.namedtuple('Option', 'short long value choices about')

OPTION = re.compile(r'^ +(?:(-\w), )? *(--[\w-]+)(?: <(\w+)>)?  +(.*)$')
# The values that are names of files; that of --recount is one, or an address.
FILES = ('PATH', 'FILE', 'JOURNAL', 'ROLL', 'WORDS', 'PAGE', 'URL')
CHOICES = re.compile(r' \[possible values: ([^]]+)\]')


def help_of(program, *command):
    ran = subprocess.run([program, *command, '--help'], capture_output=True, text=True, check=True)
    return ran.stdout


def block_of(text, title):
    """The lines below a title, up to an empty one."""
    return re.search(rf'^{title}:\n((?:.+\n?)*)', text, re.M)[1].splitlines() if f'\n{title}:\n' in text else []


def options_of(text):
    for line in block_of(text, 'Options'):
        short, long, value, about = OPTION.match(line).groups()
        choices = CHOICES.search(about)
        yield Option(short, long, value, choices[1].split(', ') if choices else [], CHOICES.sub('', about))


def commands_of(program):
    """The program's commands; the first is the program itself, without a command."""
    text = help_of(program)
    yield Command('', text.splitlines()[0], list(options_of(text)), False)
    for line in block_of(text, 'Commands'):
        name, about = line.split(maxsplit=1)
        if name != 'help':
            text = help_of(program, name)
            yield Command(name, about, list(options_of(text)), bool(block_of(text, 'Arguments')))


def for_bash(program, commands):
    whole, *others = commands
    lines = [f'# Completion of {program} for bash.', f'_{program}() {{',
             '    local word=${COMP_WORDS[COMP_CWORD]} command=${COMP_WORDS[1]}', '    COMPREPLY=()', '    case "$command,${COMP_WORDS[COMP_CWORD-1]}" in']
    for command in others:
        for option in command.options:
            names = '|'.join(f'{command.name},{it}' for it in (option.short, option.long) if it)
            if option.choices:
                choices = shlex.quote(' '.join(option.choices))
                lines.append(f'        {names}) COMPREPLY=($(compgen -W {choices} -- "$word")); return ;;')
            elif option.value not in (None, *FILES):
                lines.append(f'        {names}) return ;;')
    lines += ['    esac', '    local words', '    case $command in']
    for command in others:
        names = ' '.join(it for option in command.options for it in (option.short, option.long) if it)
        lines.append(f'        {command.name}) words={shlex.quote(names)} ;;')
    names = [it.name for it in others] + ['help'] + [option.long for option in whole.options]
    lines += [f'        *) words={shlex.quote(" ".join(names))} ;;', '    esac',
              '    if [[ $word == -* || $COMP_CWORD -eq 1 ]]; then', '        COMPREPLY=($(compgen -W "$words" -- "$word"))',
              '    else', "        local IFS=$'\\n'", '        compopt -o filenames',
              '        COMPREPLY=($(compgen -f -- "$word"))', '    fi', '}',
              f'complete -F _{program} {program}']
    return '\n'.join(lines) + '\n'


def for_zsh(program, commands):
    whole, *others = commands

    def escaped(text):
        return re.sub(r"([\[\]:\\])", r'\\\1', text).replace("'", "'\\''")

    def shown(option):
        names = f"'({option.short} {option.long})'{{{option.short},{option.long}}}'" if option.short else f"'{option.long}"
        value = f':{option.value}:' if option.value else ''
        files = '_files' if option.value in FILES else ''
        value += f'({" ".join(option.choices)})' if option.choices else files
        return f"{names}[{escaped(option.about)}]{value}'"

    lines = [f'#compdef {program}', f'_{program}() {{', '    local -a commands', '    commands=(']
    lines += [f"        '{it.name}:{escaped(it.about)}'" for it in others]
    lines += ['    )', '    if (( CURRENT == 2 )); then', "        _describe command commands", '        _arguments \\']
    lines += [f'            {shown(option)} \\' for option in whole.options]
    lines += ["            ':'", '        return', '    fi', '    local command=$words[2]', '    shift words',
              '    (( CURRENT-- ))', '    case $command in']
    for command in others:
        lines.append(f'        {command.name}) _arguments \\')
        lines += [f'            {shown(option)} \\' for option in command.options]
        lines.append("            '*:file:_files' ;;")
    lines += ['    esac', '}', f'_{program} "$@"']
    return '\n'.join(lines) + '\n'


def for_fish(program, commands):
    whole, *others = commands

    def quoted(text):
        return "'" + text.replace('\\', '\\\\').replace("'", "\\'") + "'"

    def shown(condition, option):
        words = ['complete', '-c', program, '-n', condition, '-l', option.long[2:]]
        words += ['-s', option.short[1:]] if option.short else []
        words += ['-x', '-a', quoted(' '.join(option.choices))] if option.choices else []
        if option.value and not option.choices:
            words += ['-r', '-F'] if option.value in FILES else ['-x']
        return ' '.join([*words, '-d', quoted(option.about)])

    lines = [f'# Completion of {program} for fish.']
    lines += [f'complete -c {program} -f -n __fish_use_subcommand -a {it.name} -d {quoted(it.about)}' for it in others]
    lines += [shown('__fish_use_subcommand', option) for option in whole.options]
    for command in others:
        condition = quoted(f'__fish_seen_subcommand_from {command.name}')
        lines += [f'complete -c {program} -n {condition} -F'] if command.takes_files else []
        lines += [shown(condition, option) for option in command.options]
    return '\n'.join(lines) + '\n'
