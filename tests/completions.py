#!/usr/bin/env python3
"""Completions for shells and the man page of `resb`, made from what its words say of themselves.

    tests/completions.py [--program FILE]           whether the files of share/ are those
    tests/completions.py --write [--program FILE]   writes them

The program's own help is read, of each command; each word that a command takes is asked of the
completion for bash once more. The last line is 'N passed, M failed'.
"""
import argparse
import pathlib
import re
import subprocess
import sys

TOP = pathlib.Path(__file__).resolve().parent.parent
PROGRAM = TOP / 'crates/resb_cli/out/resb_cli'
BASH = 'share/bash-completion/completions/resb'
ZSH = 'share/zsh/site-functions/_resb'
FISH = 'share/fish/vendor_completions.d/resb.fish'
MAN = 'share/man/man1/resb.1'
MADE = 'made by tests/completions.py from the help of resb'

# what stands for a value: a file, a folder, or neither
FOLDERS = {'DIR'}
NO_FILES = {'BYTES', 'ITEM', 'NAME', 'NUMBER', 'ORDER', 'PATH', 'SIZE'}

STATUS = (('0', 'All was done, and nothing differs.'),
          ('1', 'A text or a file is refused, nothing stands at a path, or something differs.'),
          ('2', 'The words are wrong, or a file or a stream fails; for diff also a refusal.'))


class Option:
    """An option: its short and long word, the name of its value if it has one, and its help."""

    def __init__(self, line):
        found = re.fullmatch(r'(?:(-\w),)? *(--[\w-]+)(?: \[?<(\w+)>\]?)? +(.*)', line.strip())
        self.short, self.long, self.value, self.help = found.groups()

    def words(self):
        return [word for word in (self.short, self.long) if word]


class Command:
    """A command: its usage, its arguments by name with their help, its options, its example."""

    def __init__(self, name, about, text):
        self.name, self.about = name, about
        self.usage = re.search(r'^Usage: (.*)$', text, re.M).group(1)
        self.arguments = re.findall(r'^  <(\w+)>(\.\.\.)? +(.*)$', section(text, 'Arguments'), re.M)
        self.options = [Option(line) for line in section(text, 'Options').splitlines()]
        self.example = re.search(r'^Example: (.*)$', text, re.M).group(1)

    def words(self):
        return [word for option in self.options for word in option.words()]


def section(text, name):
    """The lines below a title of a help."""
    found = re.search(rf'^{name}:\n((?:  .*\n?)*)', text, re.M)
    return found.group(1) if found else ''


def said(program, *words):
    """What the program prints for these words, under its name."""
    return subprocess.run(['resb', *words], executable=program, stdout=subprocess.PIPE,
                          check=True).stdout.decode()


class Words:
    """All that the program says of its words."""

    def __init__(self, program):
        text = said(program, '--help')
        self.about = text.splitlines()[0]
        self.version = said(program, '--version').split()[1]
        self.options = [Option(line) for line in section(text, 'Options').splitlines()]
        names = re.findall(r'^  (\w+) +(.*)$', section(text, 'Commands'), re.M)
        self.commands = [Command(name, about, said(program, 'help', name))
                         for name, about in names if name != 'help']
        self.help = dict(names)['help']

    def names(self):
        return [command.name for command in self.commands] + ['help']


def bash(words):
    """The completion for bash."""
    own = ' '.join(words.names() + [word for option in words.options for word in option.words()])
    values = {}
    for option in (option for command in words.commands for option in command.options):
        if option.value:
            values.setdefault(kind(option.value), set()).update(option.words())
    cases = {'folder': 'mapfile -t COMPREPLY < <(compgen -d -- "$word")',
             'file': 'mapfile -t COMPREPLY < <(compgen -f -- "$word")', 'none': ':'}
    lines = [f'# Completion of resb for bash, {MADE}.', '_resb() {',
             '  local word=${COMP_WORDS[COMP_CWORD]} command=${COMP_WORDS[1]} words=',
             '  COMPREPLY=()', '  if ((COMP_CWORD == 1)); then',
             f"    mapfile -t COMPREPLY < <(compgen -W '{own}' -- \"$word\")", '    return', '  fi',
             '  case ${COMP_WORDS[COMP_CWORD - 1]} in']
    for name in sorted(values):
        lines += [f'    {" | ".join(sorted(values[name]))})', f'      {cases[name]}',
                  '      return', '      ;;']
    lines += ['  esac', '  case $command in']
    for command in words.commands:
        lines.append(f"    {command.name}) words='{' '.join(command.words())}' ;;")
    lines += [f"    help) words='{' '.join(words.names())}' ;;", '  esac',
              '  if [[ $command == help || $word == -* ]]; then',
              '    mapfile -t COMPREPLY < <(compgen -W "$words" -- "$word")', '  else',
              f'    {cases["file"]}', '  fi', '}', 'complete -o filenames -F _resb resb']
    return '\n'.join(lines) + '\n'


def kind(value):
    """What stands for a value of this name."""
    return 'folder' if value in FOLDERS else 'none' if value in NO_FILES else 'file'


def quoted(text):
    """A text between the quotes of zsh, in brackets too."""
    return re.sub(r"([\[\]])", r'\\\1', text).replace("'", "'\\''")


def zsh(words):
    """The completion for zsh."""
    action = {'folder': '_files -/', 'file': '_files', 'none': ''}

    def spec(option):
        value = f':{option.value}:{action[kind(option.value)]}' if option.value else ''
        about = f"'[{quoted(option.help)}]{value}'"
        if option.short:
            both = f'{option.short} {option.long}'
            return f"'({both})'{{{option.short},{option.long}}}{about}"
        return f"{option.long}{about}"

    lines = ['#compdef resb', f'# Completion of resb for zsh, {MADE}.', '_resb() {',
             '  local -a commands', '  commands=(']
    for command in words.commands:
        lines.append(f"    '{command.name}:{quoted(command.about)}'")
    lines += [f"    'help:{quoted(words.help)}'", '  )', '  if (( CURRENT == 2 )); then',
              "    _describe command commands", '    _arguments \\']
    lines += [f'      {spec(option)} \\' for option in words.options[:-1]]
    lines += [f'      {spec(words.options[-1])}', '    return', '  fi', '  shift words',
              '  (( CURRENT-- ))', '  case $words[1] in']
    for command in words.commands:
        lines += [f'    {command.name})', '      _arguments \\']
        specs = [spec(option) for option in command.options]
        specs += [f"'{'*' if more else ''}:{name}:{action[kind(name)]}'"
                  for name, more, _ in command.arguments]
        lines += [f'        {it} \\' for it in specs[:-1]] + [f'        {specs[-1]}', '      ;;']
    lines += ['    help)', '      _describe command commands', '      ;;', '  esac', '}',
              '_resb "$@"']
    return '\n'.join(lines) + '\n'


def fish(words):
    """The completion for fish."""
    action = {'folder': " -x -a '(__fish_complete_directories)'", 'file': ' -r -F', 'none': ' -x'}

    def spec(option):
        short = f' -s {option.short[1:]}' if option.short else ''
        value = action[kind(option.value)] if option.value else ''
        return f"{short} -l {option.long[2:]}{value}{about(option.help)}"

    def about(text):
        text = text.replace("'", "\\'")
        return f" -d '{text}'"

    lines = [f'# Completion of resb for fish, {MADE}.', 'complete -c resb -f']
    first = 'complete -c resb -n __fish_use_subcommand'
    for command in words.commands:
        lines.append(f"{first} -a {command.name}{about(command.about)}")
    lines.append(f"{first} -a help{about(words.help)}")
    lines += [f'{first}{spec(option)}' for option in words.options]
    for command in words.commands:
        own = f"complete -c resb -n '__fish_seen_subcommand_from {command.name}'"
        lines.append(f'{own} -F')
        lines += [f'{own}{spec(option)}' for option in command.options]
    lines.append(f"complete -c resb -n '__fish_seen_subcommand_from help' "
                 f"-a '{' '.join(words.names())}'")
    return '\n'.join(lines) + '\n'


def roff(text):
    """A text of a man page."""
    text = text.replace('\\', '\\e').replace('-', '\\-')
    return re.sub(r"^([.'])", r'\\&\1', text, flags=re.M)


def man(words):
    """The man page."""
    def told(option):
        value = f' {option.value}' if option.value else ''
        return ['.TP', f'.B {roff(", ".join(option.words()) + value)}', roff(option.help)]

    about = words.about[0].lower() + words.about[1:].rstrip('.')
    lines = [f'.\\" {MADE}', f'.TH RESB 1 "" "resb {words.version}"', '.SH NAME',
             f'resb \\- {roff(about)}', '.SH SYNOPSIS', '.B resb COMMAND', '.br',
             '.B resb help COMMAND', '.SH OPTIONS']
    for option in words.options:
        lines += told(option)
    lines.append('.SH COMMANDS')
    for command in words.commands:
        lines += [f'.SS {roff(command.usage)}', roff(command.about) + '.']
        for name, more, text in command.arguments:
            lines += ['.TP', f'.I {name}{more}', roff(text)]
        for option in command.options:
            lines += told(option)
        lines += ['.PP', 'Example:', f'.B {roff(command.example)}']
    lines.append('.SH EXIT STATUS')
    for status, text in STATUS:
        lines += ['.TP', f'.B {status}', roff(text)]
    return '\n'.join(lines) + '\n'


def completed(*typed):
    """What the completion for bash gives for the last of the words that are typed."""
    script = (f'source "$0"; COMP_WORDS=(resb "$@"); COMP_CWORD={len(typed)}; _resb;'
              ' printf "%s\\n" "${COMPREPLY[@]}"')
    done = subprocess.run(['bash', '-c', script, BASH, *typed], cwd=TOP, check=False,
                          stdout=subprocess.PIPE, stderr=subprocess.STDOUT)
    return done.stdout.decode().split()


def rows(words):
    """What is compared, as (name, whether it is so)."""
    for path, made in files(words).items():
        there = TOP / path
        yield path, there.exists() and there.read_text() == made
    yield 'commands', set(words.names()) <= set(completed(''))
    for command in words.commands:
        yield f'{command.name} -', completed(command.name, '-') == command.words()
        yield f'{command.name} a file', 'README.md' in completed(command.name, 'README')
    yield '--directory', completed('compile', '--directory', 'docs') == ['docs']
    yield '--directory, a file', completed('compile', '-d', 'README') == []
    yield '--limit', completed('compile', '--limit', 'README') == []


def files(words):
    return {BASH: bash(words), ZSH: zsh(words), FISH: fish(words), MAN: man(words)}


def main():
    parser = argparse.ArgumentParser()
    parser.add_argument('--write', action='store_true')
    parser.add_argument('--program', type=pathlib.Path, default=PROGRAM)
    asked = parser.parse_args()
    words = Words(asked.program.resolve())
    if asked.write:
        for path, made in files(words).items():
            (TOP / path).parent.mkdir(parents=True, exist_ok=True)
            (TOP / path).write_text(made)
    counts = {True: 0, False: 0}
    for name, is_so in rows(words):
        counts[is_so] += 1
        if not is_so:
            print(f'failed: {name}: tests/completions.py --write makes what the words say')
    print(f'{counts[True]} passed, {counts[False]} failed')
    return int(counts[False] > 0)


if __name__ == '__main__':
    sys.exit(main())
