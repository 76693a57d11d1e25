#!/usr/bin/env python3
"""What docs/desync.1 says otherwise than the help texts that docs/COMMANDS.md shows, a line each.

Each command is a subsection of COMMANDS: how it is called, what it does, its options with their texts, and the example,
word for word as in its help text, and nothing else. Elsewhere the page names no other option, and calls commands with
options that these take. The version is that of `desync --version`.
"""

import os
import re
import shlex

TOP = os.path.dirname(os.path.dirname(os.path.abspath(__file__)))
PAGE, COMMANDS = 'docs/desync.1', 'docs/COMMANDS.md'
SECTIONS = ['NAME', 'SYNOPSIS', 'DESCRIPTION', 'COMMANDS', 'EXIT STATUS', 'FILES', 'EXAMPLES', 'SEE ALSO']
SPELLING = re.compile(r'(?<![\w-])--?[a-z][a-z-]*')
OPTION = re.compile(r' {2,}((?:-\w, )?--[a-z-]+(?: [A-Z:]+)?)(?: {2,}(.*))?')
# Options of the program itself, which no help text of a command lists.
ALONE = {'--help', '--version'}


class Command:
    """What a help text or a subsection says of a command: how it is called, what it does, its options and its example,
    as words."""

    def __init__(self, usage):
        self.usage = usage
        self.does = self.example = ''
        self.options = {}

    def parts(self):
        return {'usage': self.usage, 'description': self.does, 'example': self.example,
                **{f'option {option}': text for option, text in self.options.items()}}


def joined(*texts):
    return ' '.join(' '.join(texts).split())


def text_of(path):
    with open(os.path.join(TOP, path), encoding='utf-8') as file:
        return file.read()


def help_texts():
    """The commands of docs/COMMANDS.md by their names."""
    found = {}
    for block in re.findall(r'^```text\nusage: desync (.*?)^```', text_of(COMMANDS), re.MULTILINE | re.DOTALL):
        usage, _, rest = block.replace('`', '').partition('\n\n')
        command = found[usage.split()[0]] = Command(joined(usage))
        option = None
        for line in rest.split('\n'):
            begins = OPTION.fullmatch(line)
            if begins:
                option = begins[1]
                command.options[option] = begins[2] or ''
            elif line.startswith('example: '):
                command.example = line.removeprefix('example: ')
            elif line.startswith(' '):
                command.options[option] = joined(command.options[option], line)
            else:
                command.does = joined(command.does, line)
    return found


def requests():
    """The requests of the page: the name of each, or '' for text, with its words as they are shown."""
    for line in text_of(PAGE).rstrip('\n').split('\n'):
        name, text = '', line
        if line.startswith('.'):
            name, _, text = line[1:].partition(' ')
            words = shlex.split(text, posix=False) if name != '\\"' else []
            text = ('' if name in ('BR', 'RB', 'BI', 'IB', 'RI', 'IR') else ' ').join(word.strip('"') for word in words)
        for escape, shown in ((r'\\f[BIRP]', ''), (r'\\&', ''), (r'\\-', '-'), (r'\\e', r'\\'), (r'\\\(aq', "'"),
                              (r'\\\([lr]q', '"')):
            text = re.sub(escape, shown, text)
        yield name, text


def sections():
    """The requests of each section, in order."""
    found = {'': []}
    for name, text in requests():
        if name == 'SH':
            found[text] = []
        else:
            found[list(found)[-1]].append((name, text))
    return found


def subsections(section):
    """The commands of the section COMMANDS by their names."""
    found, command, place = {}, None, None
    for name, text in section:
        if name == 'SS':
            command, place = found.setdefault(text, Command('')), 'usage'
        elif command is None:
            yield f'{PAGE}: above the first command: {text}'
        elif name == 'P':
            place = 'does'
        elif name == 'TP':
            place = None
        elif text == 'Example:':
            place = 'example'
        elif place is None:
            place = text
            command.options[place] = ''
        elif place in ('usage', 'does', 'example'):
            setattr(command, place, joined(getattr(command, place), text))
        else:
            command.options[place] = joined(command.options[place], text)
    return found


def differences(wanted, found):
    for name in [*wanted, *(name for name in found if name not in wanted)]:
        if name not in found or name not in wanted:
            yield f'{PAGE if name not in found else COMMANDS}: no command {name}'
            continue
        wanted_parts, found_parts = wanted[name].parts(), found[name].parts()
        for part in [*wanted_parts, *(part for part in found_parts if part not in wanted_parts)]:
            if part not in found_parts or part not in wanted_parts:
                yield f'{PAGE if part not in found_parts else COMMANDS}: {name} has no {part}'
            elif wanted_parts[part] != found_parts[part]:
                yield f'{PAGE}: the {part} of {name} is "{found_parts[part]}", and not "{wanted_parts[part]}"'


def calls(commands, section):
    """What is wrong with lines that call the program."""
    for _, text in section:
        if text.startswith('desync '):
            words = text.split()
            if words[1] not in commands:
                yield f'{PAGE}: no command {words[1]}'
                continue
            spelled = {word for option in commands[words[1]].options for word in SPELLING.findall(option)}
            for word in words[2:]:
                if word.startswith('-') and word not in spelled:
                    yield f'{PAGE}: {words[1]} has no option {word}'


def main():
    commands, page = help_texts(), sections()
    if list(page) != ['', *SECTIONS]:
        yield f'{PAGE}: its sections are {", ".join(list(page)[1:])}, and not {", ".join(SECTIONS)}'
        return
    version = re.search(r'^desync ([\d.]+) \(', text_of(COMMANDS), re.MULTILINE)
    title = next((text for name, text in page[''] if name == 'TH'), '')
    if version is None or f' desync {version[1]} ' not in title:
        yield f'{PAGE}: the title is {title}, and the version {version and version[1]}'
    found = yield from subsections(page['COMMANDS'])
    for name, command in found.items():
        command.usage = joined(command.usage).removeprefix('desync ')
    yield from differences(commands, found)
    yield from calls(commands, page['EXAMPLES'])
    known = ALONE.union(*(SPELLING.findall(option) for command in commands.values() for option in command.options))
    for section in page:
        for name, text in page[section] if section != 'COMMANDS' else []:
            for word in SPELLING.findall(text) if name not in ('SH', 'TH') else []:
                if word not in known:
                    yield f'{PAGE}: no command has the option {word}'


if __name__ == '__main__':
    print('\n'.join(main()))
