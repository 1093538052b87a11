#!/usr/bin/env python3
"""Lists the places in src/ that docs/DESIGN-PASS.md counts, a point each, with file and line. usage: tools/places.py [COMMIT]
Without a commit the files of the checkout are read. It goes by text: what it lists are candidates, and the page says what became of each."""
import collections
import re
import subprocess
import sys


def files(commit):
    if commit is None:
        listed = subprocess.run(['git', 'ls-files', 'crates/*/src/*.rt'], capture_output=True, text=True, check=True).stdout.split()
        return [(path, open(path).read()) for path in listed]
    tree = subprocess.run(['git', 'ls-tree', '-r', '--name-only', commit, 'crates'], capture_output=True, text=True, check=True).stdout.split()
    read = lambda path: subprocess.run(['git', 'show', f'{commit}:{path}'], capture_output=True, text=True, check=True).stdout
    return [(path, read(path)) for path in tree if '/src/' in path and path.endswith('.rt')]


HEAD = re.compile(r'^ *(?:pub )?(?:extern "C" )?fn (\w+)')


def functions(text):
    """Each function: its name, its line, its parameters, its clauses, its body."""
    lines = text.split('\n')
    for i, line in enumerate(lines):
        m = HEAD.match(line)
        if not m:
            continue
        depth = len(line) - len(line.lstrip())
        j = i
        while j < len(lines) and not (lines[j].rstrip() == ' ' * depth + '}' or lines[j].rstrip().endswith(';') and j > i and lines[j].lstrip().startswith(('ensures', 'requires'))):
            j += 1
        whole = [l for l in lines[i:j + 1] if not l.lstrip().startswith('//')]
        text = '\n'.join(whole)
        clauses = [l.strip() for l in whole if re.match(r' *(requires|ensures)\b', l)]
        body = text[text.find('\n' + ' ' * depth + '{'):] if '\n' + ' ' * depth + '{' in text else text[text.find('{'):]
        head = text[:text.find('{')]
        params = re.findall(r'(\w+): ([^,)]+)', head.split('->')[0])
        yield m.group(1), i + 1, params, clauses, body


def lines_of(sources, pattern):
    for path, text in sources:
        for n, line in enumerate(text.split('\n'), 1):
            if not line.lstrip().startswith('//') and 'ghost ' not in line and re.search(pattern, line) and not re.match(r' *(requires|ensures)\b', line):
                yield f'{path}:{n}: {line.strip()}'


def shape(body):
    """A body with each name and number as one sign, so that twins look the same."""
    keep = {'if', 'else', 'while', 'for', 'in', 'match', 'return', 'let', 'mut', 'true', 'false'}
    tokens = re.findall(r"b?'[^']*'|b?\"[^\"]*\"|\w+|[^\s\w]", body)
    return ' '.join(t if t in keep or not re.match(r"\w|b?['\"]", t) else 'x' for t in tokens)


def main():
    sources = files(sys.argv[1] if len(sys.argv) > 1 else None)
    points = collections.OrderedDict()
    points['1 enums'] = list(lines_of(sources, r'\benum \w+'))
    points['1 numbers for none, for kinds, for refusals'] = list(lines_of(
        sources, r'Cell\(0\)|Row\(0\)|NO_NUMBER|return 0;|return -1|_ => 0,|=> -1,|\b(row|held|t|looked\.row)\.0 [!=]= 0|operation(: 0| == \d)|\b(depth|code|number|got) (==|<) 0\b|\) == 0 \{|return 1;|-> isize'))
    points['1 answers made of the enum by hand'] = list(lines_of(sources, r'Answer::\w+'))
    points['3 while'] = list(lines_of(sources, r'\bwhile\b'))
    points['3 slices eaten by hand'] = list(lines_of(sources, r'= &\w+\[1\.\.\]'))
    points['4 functions that convert, compare or print by hand'] = list(lines_of(
        sources, r'fn (number|value|as_\w+|pack|least|greatest|is_nought|is_numeral|is_letter|say|print\w*|to_\w+|from_\w+|clear|carry|cut|end)\b'))
    twins = collections.defaultdict(list)
    facts = collections.defaultdict(list)
    pairs = collections.defaultdict(list)
    for path, text in sources:
        for name, line, params, clauses, body in functions(text):
            if len(body.split()) > 4:
                twins[shape(body)].append(f'{path}:{line} {name}')
            for clause in clauses:
                if clause.startswith('requires'):
                    for fact in re.sub(r'^requires \w* *\{ | \}$|^requires \{ ', '', clause).split(' × '):
                        facts[re.sub(r'\.(old|now)\b', '', fact)].append(f'{path}:{line} {name}')
            names = [n for n, _ in params]
            for a, b in zip(names, names[1:]):
                pairs[(a, b)].append(f'{path}:{line} {name}')
    points['2 bodies of one shape'] = [' = '.join(v) for k, v in twins.items() if len(v) > 1]
    points['5 facts asked by three functions or more'] = [f'{len(v)} {k}' for k, v in facts.items() if len(v) > 2]
    points['5 parameters that travel together, in three functions or more'] = [f'{len(v)} {", ".join(k)}' for k, v in pairs.items() if len(v) > 2]
    points['6 places and lengths beside buffers'] = list(lines_of(sources, r'^ *(length|held|at|count|n|i|k): usize,|(out|key|buffer|line): &(mut )?\[u8\], (at|i|n|length|held|from): usize'))
    points['7 switches and function pointers'] = list(lines_of(sources, r'operation ==|: fn\(|dyn '))
    for name, found in points.items():
        print(f'{len(found)} {name}')
        for place in found:
            print('    ' + place)


main()
