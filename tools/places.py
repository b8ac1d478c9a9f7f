#!/usr/bin/env python3
"""Lists the places in crates/*/src that docs/DESIGN-PASS.md counts, by point.

python3 tools/places.py [--list] [COMMIT]: of a commit, or of the files as they stand; --list prints each place."""
import glob, re, subprocess, sys

def sources(commit):
    if commit:
        names = subprocess.run(['git', 'ls-tree', '-r', '--name-only', commit, 'crates'], capture_output=True, text=True, check=True).stdout.split()
        names = [n for n in names if re.fullmatch(r'crates/\w+/src/\w+\.rt', n)]
        return {n: subprocess.run(['git', 'show', commit + ':' + n], capture_output=True, text=True, check=True).stdout for n in names}
    return {n: open(n).read() for n in sorted(glob.glob('crates/*/src/*.rt'))}

def bare(text):
    return re.sub(r'//[^\n]*', '', text)

def items(text, word):
    """The items that begin with a word at the left edge, each up to its closing brace there."""
    for m in re.finditer(r'^(?:pub )?%s (\w+)[^\n]*\n(?:.*\n)*?\}' % word, text, re.M):
        yield m.group(1), m.group(0)

def functions(text):
    for m in re.finditer(r'^( *)(?:pub )?(?:extern "C" )?fn (\w+)(.*?)\{\n(.*?)\n\1\}$', text, re.M | re.S):
        yield m.group(2), m.group(3), m.group(4)

def shape(body):
    body = re.sub(r'\b(let|mut|if|else|while|for|in|return|match|loop|true|false|as)\b', lambda m: m.group(0).upper(), body)
    return re.sub(r'\s+', ' ', re.sub(r'\b[a-z_]\w*\b|\b\d\w*\b|\b[A-Z]\w*[a-z]\w*\b', 'x', body))

def places(files):
    found = {n: [] for n in ('1 enums with an empty case', '1 flags in structs', '1 numbers for kinds', '2 twins', '3 loops by hand', '4 by hand',
                             '5 the same parameters', '6 counts beside buffers', '7 switches on a number')}
    shapes = {}
    for name, text in files.items():
        text = bare(text)
        for e, whole in items(text, 'enum'):
            cases = re.findall(r'^    (\w+)(\(|,| \{)', whole, re.M)
            if any(c[1] == ',' for c in cases) and any(c[1] != ',' for c in cases):
                found['1 enums with an empty case'].append((name, e))
        for s, whole in items(text, 'struct'):
            for f in re.findall(r'(\w+): bool,', whole):
                found['1 flags in structs'].append((name, s + '.' + f))
        for f in re.findall(r'\b(?:kind|answer|number|order|pattern): u(?:8|32|64|size)\b', text):
            found['1 numbers for kinds'].append((name, f))
        for k in re.findall(r'^(?:pub )?const (\w+): u32 = \d+;', text, re.M):
            found['1 numbers for kinds'].append((name, k))
        for f, head, body in functions(text):
            if body.count('\n') >= 2:
                shapes.setdefault(shape(body), []).append((name, f))
            for w in re.findall(r'^ *(while [^\n]*|loop) \{', body, re.M):
                found['3 loops by hand'].append((name, f + ': ' + w))
            if re.fullmatch(r'same\w*|equal\w*|copy|copied|copy_\w+|compare|larger|smaller|fewer|least|less|difference|sum|sum64|low|low_word|widen|to_index|one_less|at_least_one|fill|clear|move_up|say\w*|record_of|behind', f):
                found['4 by hand'].append((name, f))
            signature = re.sub(r'\s+', ' ', head.split(' requires ')[0].split(' ensures ')[0])
            if re.search(r'store: &(mut )?\[u32\], f: Format, head: Head', signature):
                found['5 the same parameters'].append((name, f))
            if re.search(r': &(mut )?\[\w+\], (n|count|len|size): u', signature) or signature.count('&mut [') >= 3:
                found['6 counts beside buffers'].append((name, f))
            for w in re.findall(r'match ([\w.]+(?: [%/] \d+)*) \{\s*(?:\d|[A-Z]\w*::[A-Z]+ |[A-Z_]+ =>)', body):
                found['7 switches on a number'].append((name, f + ': match ' + w))
    for group in shapes.values():
        if len(group) > 1:
            found['2 twins'] += group
    return found

def main():
    rest = [a for a in sys.argv[1:] if a != '--list']
    found = places(sources(rest[0] if rest else None))
    for point, at in found.items():
        print('%-28s %d' % (point, len(at)))
        if '--list' in sys.argv:
            for name, what in at:
                print('    %s: %s' % (name, what))

main()
