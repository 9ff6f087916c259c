#!/usr/bin/env python3
"""forms.py [-v]: counts in crates/*/src the places of docs/DESIGN-PASS.md, point by point; -v lists them."""
import collections
import glob
import re
import sys

verbose = '-v' in sys.argv[1:]


def functions():
    """each function: crate/file, name, parameters, contract, body"""
    for path in sorted(glob.glob('crates/*/src/**/*.rt', recursive=True)):
        lines = open(path).read().split('\n')
        i = 0
        while i < len(lines):
            found = re.match(r'^(\s*)(?:pub )?(?:extern "C" )?fn (\w+)', lines[i])
            if not found:
                i += 1
                continue
            indent = found.group(1)
            end = i
            while lines[end] not in (indent + '}', indent + '{}'):
                end += 1
            text = re.sub(r'\{\}$', '{\\n' + indent + '}', '\n'.join(lines[i:end + 1]))  # an empty body
            depth, at = 0, text.index('(')
            for stop in range(at, len(text)):
                depth += (text[stop] in '([') - (text[stop] in ')]')
                if depth == 0:
                    break
            parameters, depth, word = [], 0, ''
            for ch in text[at + 1:stop] + ',':
                depth += (ch in '([<') - (ch in ')]>')
                if ch == ',' and depth == 0:
                    if word.strip():
                        parameters.append(re.sub(r'\s+', ' ', word.strip()))
                    word = ''
                else:
                    word += ch
            open_brace = re.search(r'\n%s\{\n| \{\n' % indent, text[stop:])
            cut = stop + open_brace.end()
            clauses = text[stop:cut]
            while 'requires' in clauses.split('\n')[-2] or 'ensures' in clauses.split('\n')[-2]:
                more = re.search(r'\n%s\{\n' % indent, text[cut - 1:])
                cut += more.end() - 1
                clauses = text[stop:cut]
                break
            yield path[7:], found.group(2), parameters, clauses, text[cut:], i + 1
            i = end + 1


def show(title, places):
    print('%5d  %s' % (len(places), title))
    if verbose:
        for place in places:
            print('           ' + place)


fs = list(functions())
sources = {p[7:]: open(p).read().split('\n') for p in sorted(glob.glob('crates/*/src/**/*.rt', recursive=True))}


def matching(pattern):
    return ['%s:%d %s' % (p, n + 1, l.strip()) for p, ls in sources.items() for n, l in enumerate(ls)
            if re.search(pattern, l)]


print('point 1')
show('enums of our own', matching(r'^\s*(pub )?enum '))
show('fields that are flags', matching(r'^\s+(pub )?\w+: bool,'))
show('functions that answer a refusal with a number', ['%s %s' % (f[0], f[1]) for f in fs
     if re.search(r'refusal', f[1]) and re.search(r'-> u8', f[3])])
show('comments that a number means none', matching(r'//.*(\b0 (if|for) (there|none|no\b|it|they|not)|if there is none|if none)'))

print('point 2')


def skeleton(body):
    body = re.sub(r'//.*', '', body)
    body = re.sub(r'\b\d+\b', '0', body)
    return re.sub(r'\s+', ' ', re.sub(r'\b[A-Za-z_]\w*\b', lambda m: m.group(0) if m.group(0) in KEEP else 'x', body))


KEEP = {'let', 'mut', 'if', 'else', 'while', 'for', 'in', 'return', 'match', 'loop', 'break', 'continue', 'as', 'true',
        'false'}
shapes = collections.defaultdict(list)
for f in fs:
    if f[4].count('\n') >= 6:
        shapes[skeleton(f[4])].append('%s %s' % (f[0], f[1]))
show('groups of functions of one shape, names and numbers aside', [', '.join(g) for g in shapes.values() if len(g) > 1])

print('point 3')
counted, other = [], []
for path, lines in sources.items():
    for n, line in enumerate(lines):
        if not re.match(r"^\s*(let \w+ = )?('\w+: )?(while|loop)\b.* \{$", line):
            continue
        indent = re.match(r'\s*', line).group(0)
        end = n
        while lines[end] != indent + '}' and lines[end] != indent + '};':
            end += 1
        body = '\n'.join(lines[n + 1:end])
        names = re.findall(r'\b[a-z_]\w*\b', line.split('while')[-1])
        stepped = [w for w in names if re.search(r'\b%s [-+]= 1;' % w, body)]
        if 'loop' in line and 'while' not in line:
            stepped = [w for w in set(re.findall(r'\b(\w+) [-+]= 1;', body))]
        (counted if stepped else other).append('%s:%d %s' % (path, n + 1, line.strip()))
show('while and loop whose counter goes by one', counted)
show('other while and loop', other)
show('for loops', matching(r"^\s*('\w+: )?for .* in "))

print('point 4')
show('equality, order, copying and conversion in a function of their own',
     ['%s %s' % (f[0], f[1]) for f in fs if re.fullmatch(
         r'lesser|greater|least|greatest|copy|copied|clear|compare\w*|differ|equal\w*|wide16|same_class|blank\w*|bit', f[1])])
loops = []
for path, lines in sources.items():
    for n, line in enumerate(lines):
        if re.match(r'^\s*(while|for) ', line) and n + 2 < len(lines):
            body = [l.strip() for l in lines[n + 1:n + 4]]
            if re.match(r'^\w[\w.]*\[[^\]]*\] = (0|\w[\w.]*\[[^\]]*\]);$', body[0]) and (body[1] == '}' or body[2] == '}'):
                loops.append('%s:%d %s' % (path, n + 1, body[0]))
show('loops that only copy or fill', loops)

print('point 5')
show('functions with more than eight parameters', ['%s %s (%d)' % (f[0], f[1], len(f[2])) for f in fs if len(f[2]) > 8])
facts = collections.defaultdict(set)
for f in fs:
    for clause in re.findall(r'requires(?: \w+)? \{ (.*?)(?=\n\s+(?:requires|ensures)|\n\s*\{\n|\n\{|$)', f[3], re.S):
        word = re.match(r'\(?([A-Z]\w+)\b', clause)
        if word:
            facts[word.group(1)].add('%s %s' % (f[0], f[1]))
show('facts in the clauses of three or more functions', ['%s (%d)' % (k, len(v)) for k, v in sorted(facts.items())
                                                       if len(v) >= 3])
together = collections.Counter()
for f in fs:
    names = sorted({p.split(':')[0].replace('mut ', '') for p in f[2]})
    for a in range(len(names)):
        for b in range(a + 1, len(names)):
            together[names[a], names[b]] += 1
alone = collections.Counter(p.split(':')[0].replace('mut ', '') for f in fs for p in f[2])
show('pairs of parameters of which one never comes without the other, in four or more functions',
     ['%s, %s (%d)' % (a, b, n) for (a, b), n in together.items() if n >= 4 and n in (alone[a], alone[b])])

print('point 6')
show('functions that take an array and its length', ['%s %s' % (f[0], f[1]) for f in fs
     if any(re.match(r'count: usize|m: usize|size: usize|found: usize', p) for p in f[2]) and any('[' in p for p in f[2])])

print('point 7')
show('flags that say which step runs', ['%s %s: %s' % (f[0], f[1], p) for f in fs for p in f[2] if p.endswith(': bool')])
show('loops that call one step until it changes nothing', matching(r'while \w+\(.*\) \{\}'))

print('point 8')
answers = glob.glob('crates/*/proofs/**/Answers.antt', recursive=True)
inv = glob.glob('crates/*/proofs/**/Invariants.antt', recursive=True)
every = glob.glob('crates/*/proofs/**/*.antt', recursive=True)
print('%5d  answers in %d files, invariants in %d; %d lines of proofs in all' % (
    sum(open(p).read().count('\npub ') + open(p).read().startswith('pub ') for p in answers), len(answers), len(inv),
    sum(open(p).read().count('\n') for p in every)))
