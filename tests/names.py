#!/usr/bin/env python3
"""What the documents name and the repository lacks, a line each, labels of clauses that no list has, and what is too
much in crates.txt, in a crate or in the documents.

A crate is one of crates.txt. A label is the name of a clause (`ensures LABEL { .. }`). Each row of docs/PROMISES.md has
a promise, and behind it public functions, a colon and labels, in a section whose heading has the crates in brackets:
each label has to be that of a clause of one of the functions, and each function that has labels has to have one of
these. Other words in backquotes are names where they are in the spelling of code: each has to stand in some source,
script or list.
"""

import os
import re
import sys

TOP = os.path.dirname(os.path.dirname(os.path.abspath(__file__)))
PROMISES, DEFINITIONS, CONTRIBUTING = 'docs/PROMISES.md', 'docs/DEFINITIONS.md', 'CONTRIBUTING.md'
TOP_CALLS = 'crates/desync_cli/src/run.rt', 'crates/desync_cli/src/in_memory.rt'
CLAUSE = re.compile(r'^\s*(?:ensures|requires)\*? (\w+) \{')
FUNCTION = re.compile(r'\s*(?:pub(?:\(\w+\))? )?fn (\w+)')
DEFINITION = re.compile(r'^( *)(?:(?:abbrev|unfoldable) )?pub ((?:record|data) )?(?!mod |use |◌)(\w+)')
IMPORT = re.compile(r'^(?:ghost |pub )?use Rattle\.(\w+)\.specs\.(\w+)\.\{([^}]*)\}', re.MULTILINE)
MODULE = re.compile(r'^(?:ghost |pub )?use Rattle\.(\w+)\.specs\.(\w+) as (\w+);?$', re.MULTILINE)
MOST_LINES, MOST_BODY, MOST_PARAMETERS = 1500, 40, 7
# Functions that have more parameters: the program's call, whose signature is given.
MANY_PARAMETERS = {'desync_cli': ['desync']}
# The most words of all documents and of single ones, those of the manual page and of tables and blocks counted too.
MOST_WORDS, MOST_OF = 35000, {PROMISES: 5000, DEFINITIONS: 5000}
# Names of specs/ that several modules define, which modules these are, and why they may share it.
SHARED = {name: ({f'chunk_server.{here}', f'http_serve.{there}'}, 'said of any requests, and of those for chunks')
          for here, there, names in (('Requests', 'Requests', ('AreRequests', 'IsOver')),
                                     ('Requests', 'Protocols', ('Asked',)), ('Turns', 'Protocols', ('Turn',)),
                                     ('Turns', 'Turns', ('BreaksOff', 'Cut', 'Lacking', 'SendsMost', 'Served', 'Takes',
                                                         'files_left', 'replies', 'turns_of')))
          for name in names}
SHARED |= {
    'told_files': ({'chunk_proxy.States', 'command_groups.Opened'}, 'said of a cache, and of a group of stores'),
    'files_in': ({'command_groups.Opened', 'forms.Files'}, 'said of a group of stores, and of folders in memory'),
    'AreUnused': ({'assembler.OneKit', 'command_groups.Opened'}, 'said of seeds and stores of a kit, and of a group'),
}
NAME = re.compile(r'[a-z][a-z0-9]*(?:_[a-z0-9]+)+|[A-Z][a-z0-9]+(?:[A-Z][a-z0-9]*)+')


def text_of(path):
    with open(os.path.join(TOP, path), encoding='utf-8') as file:
        return file.read()


def files(*folders, endings):
    for folder in folders:
        for path, inner, names in os.walk(os.path.join(TOP, folder)):
            inner[:] = [name for name in inner if name not in ('out', 'bin', '__pycache__')]
            for name in names:
                if name.endswith(endings):
                    yield os.path.relpath(os.path.join(path, name), TOP)


def crates():
    return re.findall(r'^([a-z]\w*)[ :]', text_of('crates.txt'), re.MULTILINE)


def documents():
    return ['README.md', CONTRIBUTING, *sorted(files('docs', endings='.md'))]


def labels_of(crate, private=False):
    """The labels of the clauses of a crate's public functions and traits, or of all functions."""
    return {label for path in files(f'crates/{crate}/src', endings='.rt')
            for label in labels_in(text_of(path), private)}


def labels_in(source, private):
    return (label for _, label in clauses_in(source, private) if label)


def clauses_in(source, private=False):
    """The public functions of a source, or all, each once with no label and then with the label of each clause."""
    in_trait = public = False
    function = None
    for line in source.split('\n'):
        if line.startswith(('pub trait', '}')):
            in_trait = line.startswith('pub trait')
        found = FUNCTION.match(line)
        if found:
            function = found.group(1)
            public = in_trait or line.lstrip().startswith('pub fn ')
            if public or private:
                yield function, None
        if public or private:
            yield from ((function, label) for label in CLAUSE.findall(line))


def lines_without_blocks(path):
    """The lines of a document outside its blocks, with their numbers."""
    inside = False
    for number, line in enumerate(text_of(path).split('\n'), 1):
        if line.startswith('```'):
            inside = not inside
        elif not inside:
            yield number, line


def labels_that_are_not_there():
    named, labels = [], {}
    for number, line in lines_without_blocks(PROMISES):
        if line.startswith('#'):
            found = re.search(r'\(([a-z0-9_, ]+)\)$', line)
            named = re.findall(r'\w+', found.group(1)) if found else []
            for crate in set(named) - set(crates()):
                yield f'{PROMISES}:{number}: no crate {crate}'
            labels = {}
            for path in (path for crate in named for path in files(f'crates/{crate}/src', endings='.rt')):
                for function, label in clauses_in(text_of(path)):
                    labels.setdefault(function, set()).add(label)
        elif named and line.startswith('|'):
            functions, _, clauses = line.strip('| ').split('|')[-1].partition('`: ')
            functions, clauses = (re.findall(r'`([\w:]+)`', cell) for cell in (functions + '`', clauses))
            yield from (f'{PROMISES}:{number}: {fault}' for fault in faults_of_row(functions, set(clauses), labels))


def faults_of_row(functions, wanted, labels):
    for function in functions:
        name = function.rsplit('::', 1)[-1]
        if name not in labels:
            yield f'no function {function}'
        elif wanted and labels[name] != {None} and not wanted & labels[name]:
            yield f'{function} has none of these clauses'
    there = {label for function in functions for label in labels.get(function.rsplit('::', 1)[-1], ())}
    yield from (f'no clause {label}' for label in sorted(wanted - there))


def labels_that_are_not_listed():
    section = re.search(r'^## Labels of clauses$.*?(?=^## )', text_of(CONTRIBUTING), re.MULTILINE | re.DOTALL)[0]
    listed = {label for line in section.split('\n') if line.startswith('- `')
              for label in re.findall(r'`(\w+)`', line.split(': ')[0])}
    used = {label: crate for crate in crates() for label in labels_of(crate)}
    for label in sorted(set(used) - listed):
        yield f'{CONTRIBUTING}: no label {label}, as in {used[label]}'
    for label in sorted(listed - {label for crate in crates() for label in labels_of(crate, private=True)}):
        yield f'{CONTRIBUTING}: label {label}, which no clause has'


def names_that_are_not_there():
    sources = [*files('crates', endings=('.rt', '.antt', '.edit')), *files('tests', 'bench', endings=('.py', '.sh')),
               'crates.txt', 'build', 'install', 'quickstart.sh']
    there = set(re.findall(r'\w+', ' '.join(text_of(path) for path in sources)))
    there |= {os.path.splitext(os.path.basename(path))[0] for path in sources}
    for path in documents():
        for number, line in lines_without_blocks(path):
            for quoted in re.findall(r'`(?!rt )([^`]+)`', line):
                for name in NAME.findall(quoted):
                    if name not in there:
                        yield f'{path}:{number}: {name}'


def crates_that_no_table_has():
    for path in (PROMISES, 'docs/ARCHITECTURE.md'):
        text = text_of(path)
        for crate in sorted(crates()):
            if not re.search(rf'\b{crate}\b', text):
                yield f'{path}: no {crate}'


def definitions_in(path):
    """The definitions of a module of specs/ in order: name, line, text, and whether a comment stands right above."""
    found, above, record = [], '', None
    for number, line in enumerate(text_of(path).split('\n'), 1):
        match = DEFINITION.match(line)
        if match and (match.group(2) or record is None or len(match.group(1)) <= record or line.lstrip()[:3] != 'pub'):
            found.append([match.group(3), number, line, re.match(r' *-- (?!----)', above) is not None])
            record = len(match.group(1)) if match.group(2) else None
        elif found and not line.lstrip().startswith(('--', 'module ')):
            found[-1][2] += '\n' + line
        above = line
    return found


def modules():
    """The modules of all specs/ by crate and name: the names that each imports, and its definitions."""
    found = {}
    for path in (path for crate in crates() for path in files(f'crates/{crate}/specs', endings='.antt')):
        place = path.split('/')[1], os.path.basename(path)[:-len('.antt')]
        found[place] = imports_of(text_of(path)), {each[0]: each[2] for each in definitions_in(path)}
    return found


def imports_of(source):
    """Where each name of a source comes from, and what it is called there; modules that are named there, as `NAME.`."""
    names = {name.split(' as ')[-1]: (crate, module, name.split(' as ')[0])
             for crate, module, names in IMPORT.findall(source) for name in names.split(', ')}
    return {**names, **{f'{name}.': (crate, module) for crate, module, name in MODULE.findall(source)}}


def places_in(text, imports, crate='', module=''):
    """Where the words of a text come from in a source with these imports, as crate, module and name."""
    for word in set(re.findall(r'\w+', text)):
        yield imports.get(word, (crate, module, word))
    for alias, name in set(re.findall(r'\b(\w+\.)(\w+)', text)):
        if alias in imports:
            yield (*imports[alias], name)


def read_aloud():
    """The definitions of docs/DEFINITIONS.md by name, each with the crates of the headings that it stands under."""
    told, named = {}, []
    for _, line in lines_without_blocks(DEFINITIONS):
        if line.startswith('## '):
            named = line[3:].split(', ')
        elif line.startswith('- '):
            for name in re.findall(r'`(\w+)[^`]*`(?=[^:]*:)', line.split(': ')[0] + ':'):
                told.setdefault(name, set()).update(named)
    return told


def definitions_that_are_not_read_aloud():
    """What the clauses of the top calls reach and docs/DEFINITIONS.md lacks, and what it has that no specs/ have."""
    known = modules()
    waiting = [place for path in TOP_CALLS
               for signature in re.findall(r'^pub fn .*?^\{', text_of(path), re.MULTILINE | re.DOTALL)
               for place in places_in(signature, imports_of(text_of(path)))]
    reached, seen = set(), set()
    while waiting:
        crate, module, name = place = waiting.pop()
        if place in seen:
            continue
        seen.add(place)
        imports, defined = known.get((crate, module), ({}, {}))
        if name in defined:
            reached.add(place)
            waiting.extend(places_in(defined[name], imports, crate, module))
        elif name in imports:
            waiting.append(imports[name])
    told = read_aloud()
    for name, places in told.items():
        if not places & {crate for (crate, _), (_, defined) in known.items() if name in defined}:
            yield f'{DEFINITIONS}: no definition {name} in {" or ".join(sorted(places))}'
    for crate, module, name in sorted(reached):
        if crate not in told.get(name, ()):
            yield f'{DEFINITIONS}: no {name} of {crate}, {module}'


def definitions_without_a_comment():
    """Those that have no sentence: no comment right above them, and no place in docs/DEFINITIONS.md."""
    told = read_aloud()
    for crate in crates():
        for path in files(f'crates/{crate}/specs', endings='.antt'):
            for name, number, _, commented in definitions_in(path):
                if not commented and crate not in told.get(name, ()):
                    yield f'{path}:{number}: {name}'


def names_with_two_meanings():
    """Names that definitions of several modules have, but for SHARED. The modules of dsy_sure say of forms in memory
    that never fail what those of byte_forms and dsy_forms say of forms that may fail, with the same names."""
    found = {}
    for (crate, module), (_, defined) in modules().items():
        for name in defined:
            place = re.sub(r'^dsy_sure.Sure|^(?:byte|dsy)_forms.Mem', 'forms.', f'{crate}.{module}')
            found.setdefault(name, set()).add(place)
    for name, places in sorted(found.items()):
        if len(places) > 1 and places != SHARED.get(name, ((), ''))[0]:
            yield f'{name}: {", ".join(sorted(places))}'
    yield from (f'tests/names.py: {name} is not shared' for name in SHARED if found.get(name) != SHARED[name][0])


def calls_with_an_alias():
    for path in (path for crate in crates() for path in files(f'crates/{crate}/src', endings='.rt')):
        for imported in re.findall(r'^ *(?:pub )?use ([^;]*);', text_of(path), re.MULTILINE):
            yield from (f'{path}: {name}' for name in re.findall(r'\b\w+ as [a-z]\w*', imported))


def crates_named_in_vain():
    for line in text_of('crates.txt').split('\n'):
        crate, _, below = line.partition(':')
        if crate in crates():
            paths = [path for part in ('src', 'specs', 'proofs')
                     for path in files(f'crates/{crate}/{part}', endings=('.rt', '.antt'))]
            used = set(re.findall(r'\b(\w+)::|Rattle\.(\w+)\.', '\n'.join(text_of(path) for path in paths)))
            for name in sorted(set(below.split()) - {name for pair in used for name in pair}):
                yield f'crates.txt: {crate} uses nothing of {name}'


def crates_that_are_too_long():
    """Those of tests aside, which nothing stands on."""
    for crate in crates():
        paths = [*files(f'crates/{crate}/src', endings='.rt'), *files(f'crates/{crate}/specs', endings='.antt')]
        lines = sum(text_of(path).count('\n') for path in paths)
        if MOST_LINES < lines and not crate.endswith('_cases'):
            yield f'{crate}: {lines} lines'


def documents_that_are_too_long():
    words = {path: len(text_of(path).split()) for path in [*documents(), 'docs/desync.1']}
    yield from (f'{path}: {words[path]} words' for path, most in MOST_OF.items() if most < words[path])
    if MOST_WORDS < sum(words.values()):
        yield f'all documents: {sum(words.values())} words'


def bodies_that_are_too_long():
    """Bodies that have not fewer than 40 lines between their braces, but for those that are one `match`."""
    for path in (path for crate in crates() if not crate.endswith('_cases')
                 for path in files(f'crates/{crate}/src', endings='.rt')):
        lines = text_of(path).split('\n')
        for start, line in enumerate(lines):
            found = re.match(r'( *)(?:pub(?:\(\w+\))? )?fn (\w+)', line)
            body = found and body_of(lines, start, found.group(1))
            if body and MOST_BODY <= len(body) and not body[0].lstrip().startswith('match '):
                yield f'{path}:{start + 1}: {found.group(2)} has a body of {len(body)} lines'


def body_of(lines, start, indent):
    """The lines of the body of the function that starts here, if it has one. What a trait asks for ends with `;`."""
    for at in range(start, len(lines)):
        if lines[at] == indent + '{' or lines[at].endswith('{') and (at == start or lines[at].startswith(indent + ')')):
            return lines[at + 1:lines.index(indent + '}', at)]
        if lines[at].endswith(('{}', ';')) and lines[at + 1].strip() in ('', '}'):
            break
    return None


def parameters_that_are_too_many():
    for crate in (crate for crate in crates() if not crate.endswith('_cases')):
        for path in files(f'crates/{crate}/src', endings='.rt'):
            for found in re.finditer(r'^ *(?:pub(?:\(\w+\))? )?fn (\w+)', text_of(path), re.MULTILINE):
                count = count_of_parameters(text_of(path)[found.end():])
                if MOST_PARAMETERS < count and found.group(1) not in MANY_PARAMETERS.get(crate, ()):
                    yield f'{path}: {found.group(1)} has {count} parameters'


def count_of_parameters(signature):
    """How many parameters a signature has, of which this stands behind the name: maybe types in `<>`, then brackets."""
    depth = count = 0
    inside, empty, last = False, True, ''
    for char in signature:
        if inside and not char.isspace() and depth == 1 and char not in ',)':
            empty = False
        if char in '([{<':
            inside = inside or char == '(' and depth == 0
            depth += 1
        elif char in ')]}' or char == '>' and last not in '-=':
            depth -= 1
            if inside and depth == 0:
                return count + (not empty)
        elif inside and depth == 1 and char == ',':
            count, empty = count + 1, True
        last = char
    return count


QUESTIONS = {'labels': labels_that_are_not_there, 'list': labels_that_are_not_listed, 'names': names_that_are_not_there,
             'crates': crates_that_no_table_has, 'reached': definitions_that_are_not_read_aloud,
             'comments': definitions_without_a_comment, 'twice': names_with_two_meanings,
             'aliases': calls_with_an_alias, 'vain': crates_named_in_vain, 'long': crates_that_are_too_long,
             'bodies': bodies_that_are_too_long, 'words': documents_that_are_too_long,
             'parameters': parameters_that_are_too_many}

if __name__ == '__main__':
    print('\n'.join(QUESTIONS[sys.argv[1]]()))
