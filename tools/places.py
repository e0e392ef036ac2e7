#!/usr/bin/env python3
"""Lists the places that docs/DESIGN-PASS.md counts, point by point, and how many there are.

    python3 tools/places.py [COMMIT]

COMMIT is a commit of this repository; with none the files are read as they lie. Points 1, 3, 4, 6 and 7 go by a pattern
over the lines of crates/*/src; point 2 compares the bodies of functions, point 5 the contracts and parameters of
functions, point 8 the lines of answers and lemmas in crates/*/proofs. A place that is found is a place to look at.
"""
import collections
import difflib
import glob
import re
import subprocess
import sys

COMMIT = sys.argv[1] if len(sys.argv) > 1 else None

PATTERNS = [
    ('1a an enum with a case for a refusal or for nothing', r'^    (Refused|Failed|Nothing|Done|Missing|Absent)\b.*,$'),
    ('1b a field that says which kind a value is', r'^\s+(pub(\(crate\))? )?(kind|flag|tag|is_\w+|has_\w+): '),
    ('1c a number for a kind or a refusal', r'number: u\d|-> \(?u8\b|number\(|=> \((\d+),'),
    ('1d a number for what is not there', r'(None|\[\]) => (0|255)\b|unwrap_or\(0\)|else \{ 0 \}|(high|newest|low)(\(\))? (==|!=) 0\b'),
    ('3a a loop with a counter or over numbers', r'^\s+(while|loop)\b|^\s+for \w+ in [^{]*\.\.'),
    ('3b a loop over items with their index', r'for \(\w+, \w+\) in .*enumerate\(\)'),
    ('4a equality by hand', r'fn (is|same|same_\w+|equal)\b|as u8 =='),
    ('4b a conversion by hand', r'fn (refusal|to_\w+|answer_of|kind_of|prefix_of|since_of|policy_of|list_of|made)\b'),
    ('4c printing by hand', r'fn print_\w+'),
    ('6a an array of fixed size', r'\[[A-Z]?\w*(::\w+)?( \{[^}]*\})?; (\d+|MOST\w*( as usize)?)\]'),
    ('6b bytes with a number of what is in use', r'^\s+(pub(\(crate\))? )?(used|count|len): u\w+,'),
    ('6c a search by halving', r'/ 2;'),
    ('7a a step chosen by a word or a number', r'match (words|kind|step|\(scale, kind\))'),
    ('7b a table of functions, a pointer or a dyn', r': fn\(|dyn |\[fn\('),
]


def listed(kind):
    """The files of src/ or proofs/, with their lines."""
    end = {'src': '.rt', 'proofs': '.antt'}[kind]
    if COMMIT is None:
        names = sorted(glob.glob(f'crates/*/{kind}/**/*{end}', recursive=True))
        return [(name, open(name, encoding='utf-8').read()) for name in names]
    names = subprocess.run(['git', 'ls-tree', '-r', '--name-only', COMMIT, 'crates'], capture_output=True, text=True, check=True).stdout.split('\n')
    names = [name for name in names if re.match(rf'crates/\w+/{kind}/.*\{end}$', name)]
    return [(name, subprocess.run(['git', 'show', f'{COMMIT}:{name}'], capture_output=True, text=True, check=True).stdout) for name in names]


def functions(files):
    """Each function: its file, name, contract with parameters, and body."""
    for name, text in files:
        for part in re.split(r'(?m)^(?=[ \t]*(?:pub(?:\(crate\))? )?(?:extern "C" )?fn )', text)[1:]:
            head = re.match(r'(?s)[ \t]*(?:pub(?:\(crate\))? )?(?:extern "C" )?fn (\w+)(.*?)(?:\n?[ \t]*\{\n(.*?)\n[ \t]*\}\n|;\n|\{\}\n)', part)
            if head:
                yield name, head.group(1), head.group(2), body_of(part)


def body_of(part):
    """From the line that opens the body to the line that closes it."""
    lines = part.split('\n')
    indent = len(lines[0]) - len(lines[0].lstrip())
    begin = next((i for i, line in enumerate(lines) if line == ' ' * indent + '{' or (i == 0 and line.endswith('{')) or line == ' ' * indent + ') {' or (line.startswith(' ' * indent + ')') and line.endswith('{'))), None)
    if begin is None:
        return ''
    end = next((i for i in range(begin + 1, len(lines)) if lines[i] == ' ' * indent + '}'), len(lines))
    return '\n'.join(line for line in lines[begin + 1:end] if not line.strip().startswith('//'))


def show(title, places):
    print(f'## {title}: {len(places)}')
    for place in places:
        print('  ', place)


def patterns(files):
    for title, pattern in PATTERNS:
        show(title, [f'{name}:{i}: {line.strip()}' for name, text in files for i, line in enumerate(text.split('\n'), 1) if re.search(pattern, line) and not line.strip().startswith('//')])


def twins(files):
    shapes = []
    for name, function, _, body in functions(files):
        words = re.findall(r'\w+|[^\w\s]', body)
        if len(words) >= 15 and '/tests.rt' not in name:
            shapes.append((name, function, words))
    found = []
    for i, (name, function, words) in enumerate(shapes):
        for other, second, others in shapes[i + 1:]:
            if 0.8 < len(words) / len(others) < 1.25 and difflib.SequenceMatcher(None, words, others, autojunk=False).ratio() >= 0.8:
                found.append(f'{name} {function} = {other} {second}')
    show('2 functions whose bodies are alike in four words of five', found)


def together(files):
    facts = collections.defaultdict(set)
    parameters = collections.defaultdict(set)
    for name, function, head, _ in functions(files):
        crate = name.split('/')[1]
        for fact in re.findall(r'requires(?: \w+)? \{ (.*) \}', head):
            facts[crate, re.sub(r'\.(old|now|new)\b', '', fact)].add(function)
        names = sorted(set(re.findall(r'(?m)(?:\(|, |^\s+)(?:mut )?(\w+): ', head.split('requires')[0].split('ensures')[0])))
        for i, first in enumerate(names):
            for second in names[i + 1:]:
                parameters[crate, first, second].add(function)
    show('5a a fact that three or more functions of a crate require', [f'{crate}: {fact}: {" ".join(sorted(which))}' for (crate, fact), which in sorted(facts.items()) if len(which) >= 3])
    show('5b two parameters that four or more functions of a crate take together', [f'{crate}: {first}, {second}: {" ".join(sorted(which))}' for (crate, first, second), which in sorted(parameters.items()) if len(which) >= 4])


def answers(files):
    lines = collections.defaultdict(lambda: collections.Counter())
    for name, text in files:
        for line in text.split('\n'):
            if len(line.strip()) >= 60 and not line.startswith('use ') and not line.strip().startswith('--'):
                lines[name.split('/')[1]][line.strip()] += 1
    show('8 a long line that stands three times or more in a crate\'s proofs', [f'{crate}: {n} times: {line[:110]}' for crate in sorted(lines) for line, n in lines[crate].items() if n >= 3])
    print('## 8 lines of proofs:', sum(text.count('\n') for _, text in files))


if __name__ == '__main__':
    sources = listed('src')
    patterns(sources)
    twins(sources)
    together(sources)
    answers(listed('proofs'))
