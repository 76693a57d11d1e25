#!/bin/bash
# What must never stand in the repository, and what must: tags and names of planning papers, paths of one machine,
# files, lines, crates and documents that are too long, crates that crates.txt or a document leaves out or names in
# vain, what a document names that isn't there (crates, labels of clauses, definitions and functions), a manual page
# that says other things than the help texts, and edits that don't fit the code that they change.
cd "$(dirname "$0")/.." || exit 1
passed=0
failed=0

# check WHAT FOUND: passes where nothing was found, else prints what was. What a script says as it breaks is found too.
check() {
    if [ -z "$2" ]; then
        passed=$((passed + 1))
    else
        failed=$((failed + 1))
        printf 'FAILED %s:\n%s\n' "$1" "$(printf '%s\n' "$2" | head -20)"
    fi
}

# The files of the repository: those that git keeps, and new ones that it would keep.
files() {
    if git rev-parse --is-inside-work-tree > /dev/null 2>&1; then
        git ls-files -z --cached --others --exclude-standard
    else
        find . \( -name .git -o -name out -o -name bin -o -name __pycache__ \) -prune -o -type f -print0
    fi
}

# Lines of text files that match an extended regular expression.
lines() { files | xargs -0 -r grep -nHIE -- "$1" 2> /dev/null; }

# Lines of the files in src and specs and of scripts that have more than 120 characters, whatever the locale.
wide() {
    python3 - << 'END'
from glob import glob
sources = glob('crates/*/src/**/*.rt', recursive=True) + glob('crates/*/specs/**/*.antt', recursive=True)
scripts = glob('tests/*.*') + glob('bench/*.py') + ['build', 'install', 'quickstart.sh', '.ci/run']
for path in sorted(sources + scripts):
    with open(path, encoding='utf-8') as file:
        for number, line in enumerate(file, 1):
            if len(line.rstrip('\n')) > 120:
                print(f'{path}:{number}')
END
}

crates() { for folder in crates/*/; do [ -d "$folder" ] && basename "$folder"; done; }

listed() { sed -n -E 's/^([a-z][a-z0-9_]*)[ :].*/\1/p' crates.txt; }

check 'tags of a planning paper' "$(lines '\<(def|promise|step|example|wrong)[:][A-Za-z]')"
check 'names of planning papers' "$(lines '\<(scope|promises|roadmap|formats|settled)[.]md|[.][.]/shared')"
check 'paths of one machine' "$(lines '(^|[^A-Za-z0-9_.~-])/(opt|work|root)[/]')"
# But scripts of cases, and what these print.
check 'files of more than 800 lines' "$(files | xargs -0 -r wc -l 2> /dev/null |
    awk '$2 ~ /^(\.\/)?crates\// && $2 !~ /_cases\/std(in|out)$/ && $1 > 800')"
check 'files of src and specs of 500 lines and more' "$(files | grep -zE '^(\./)?crates/[a-z_]+/(src|specs)/' |
    xargs -0 -r wc -l 2> /dev/null | awk '$2 != "total" && $1 >= 500')"
check 'crates of more than 1,500 lines' "$(python3 tests/names.py long 2>&1)"
check 'bodies of 40 lines and more' "$(python3 tests/names.py bodies 2>&1)"
check 'functions of more than 7 parameters' "$(python3 tests/names.py parameters 2>&1)"
check 'lines of more than 120 columns' "$(wide 2>&1)"
check 'documents of too many words' "$(python3 tests/names.py words 2>&1)"
check 'files that are built' "$(files | tr '\0' '\n' | grep -E '(^|/)(out|bin|__pycache__)/')"
check 'crates that crates.txt leaves out' "$(comm -23 <(crates | sort) <(listed | sort))"
check 'crates of crates.txt that are not there' "$(comm -13 <(crates | sort) <(listed | sort))"
check 'crates that crates.txt names in vain' "$(python3 tests/names.py vain 2>&1)"
check 'crates that a document leaves out' "$(python3 tests/names.py crates 2>&1)"
check 'functions, labels and crates of docs/PROMISES.md that are not there' "$(python3 tests/names.py labels 2>&1)"
check 'labels of clauses that CONTRIBUTING.md does not list' "$(python3 tests/names.py list 2>&1)"
check 'names in documents that are nowhere else' "$(python3 tests/names.py names 2>&1)"
check 'definitions that docs/DEFINITIONS.md does not read aloud' "$(python3 tests/names.py reached 2>&1)"
check 'definitions that have no sentence' "$(python3 tests/names.py comments 2>&1)"
check 'names of specs/ that several modules define' "$(python3 tests/names.py twice 2>&1)"
check 'calls that are imported by another name' "$(python3 tests/names.py aliases 2>&1)"
check 'what docs/desync.1 says otherwise than docs/COMMANDS.md' "$(tests/manual.py 2>&1)"
if type -P groff > /dev/null; then
    check 'warnings of groff at docs/desync.1' "$(groff -man -Tutf8 -ww -z docs/desync.1 2>&1)"
else
    echo 'SKIPPED warnings of groff at docs/desync.1: groff is not installed'
fi
check 'edits that do not fit the code' "$(tests/further_edits.sh --apply 2>&1)"
echo "docs: $passed passed, $failed failed"
[ "$failed" -eq 0 ]
