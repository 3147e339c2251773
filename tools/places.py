#!/usr/bin/env python3
"""Lists places in crates/*/src where the code may be written in an older form.

    python3 tools/places.py [--at COMMIT] [--list POINT]

Without --list: a table of counts, a row for each point and a column for each crate. With it: the places
of one point. A place is where to look, and no verdict: docs/DESIGN-PASS.md says what came of each.
"""
import argparse, collections, itertools, pathlib, re, subprocess, sys

INTEGER = r'(?:u8|u16|u32|u64|usize)'
LINES = {
    '1 enums': r'^\s*(?:pub(?:\([a-z]+\))? )?enum ',
    '1 sentinels and numbers for kinds': r'\busize::MAX\b|\bNUMBERS\b|\b(?:over|falls)\b.*(?:!= 0|: 0|usize)|\bgrade: None|row: 0\b|-> u8\b',
    '3 loops by index': r'^\s*(?:for \w+ in [^{]*\.\.|while )',
    '4 conversions by `as`': rf' as {INTEGER}\b',
    '4 equality, conversion and printing by hand': r'\bfn (?:same\w*|number|place|path_number|print_\w*refusal)\b|=> return Err\(|Err\((?:refusal|refused)\) => Err\(|^impl PartialEq|^impl Eq',
    '6 a length beside a buffer': r'\b(?:count|found|len|length|listed|opening|watching|linking|settled|rows): usize\b',
    '7 steps chosen by a value': r'\bfn\(|\bdyn |\bimpl Fn|\benum (?:Change|Call)\b',
}

def files(commit):
    if commit is None:
        return {str(p): p.read_text() for p in sorted(pathlib.Path('crates').glob('*/src/**/*.rt'))}
    names = subprocess.run(['git', 'ls-tree', '-r', '--name-only', commit, 'crates'], capture_output=True, text=True, check=True).stdout.split()
    wanted = [n for n in names if '/src/' in n and n.endswith('.rt')]
    return {n: subprocess.run(['git', 'show', f'{commit}:{n}'], capture_output=True, text=True, check=True).stdout for n in wanted}

FUNCTION = re.compile(r'^\s*(?:pub(?:\([a-z]+\))? )?(?:extern "C" )?fn (\w+)(?:<[^{]*?>)?\(', re.M)

def functions(text):
    """Yields (line, name, parameters, requires clauses) of each function."""
    for m in FUNCTION.finditer(text):
        depth, i = 1, m.end()
        while depth:
            depth += {'(': 1, ')': -1}.get(text[i], 0)
            i += 1
        params = re.findall(r'(?:^|,)\s*(?:mut )?(\w+)\s*:\s*([^,]+(?:<[^>]*>)?)', text[m.end():i - 1])
        if re.match(r'\s*&(?:mut )?self', text[m.end():i - 1]):
            params = [('self', '')] + params
        end = re.compile(r'^\s*\{', re.M).search(text, i)
        head = text[i:end.start()] if end else text[i:]
        clauses = [' '.join(c.split()) for c in re.findall(r'requires(?: \w+)? \{ (.*?) \}\s*$', head, re.M)]
        yield text.count('\n', 0, m.start()) + 1, m.group(1), params, clauses

def facts(sources):
    """Clauses of `requires` that stand in three or more functions of a crate, and sets of three or more
    parameters that do."""
    by_clause, by_params = collections.defaultdict(list), collections.defaultdict(list)
    for name, text in sources.items():
        crate = name.split('/')[1]
        for line, fn, params, clauses in functions(text):
            for c in set(clauses):
                by_clause[crate, c].append(f'{name}:{line} {fn}')
            names = [p for p, _ in params if p != 'self']
            for some in itertools.combinations(names, 3):
                by_params[crate, some].append(f'{name}:{line} {fn}')
    found = collections.defaultdict(list)
    for (crate, c), where in by_clause.items():
        if len(where) >= 3:
            found['5 facts in three or more contracts', crate].append(f'{len(where)}: {c}')
    groups = {}
    for (crate, some), where in by_params.items():
        if len(where) >= 3:
            groups.setdefault((crate, tuple(where)), set()).update(some)
    for (crate, where), some in groups.items():
        found['5 parameters that travel together', crate].append(f'{len(where)}: {", ".join(sorted(some))}')
    return found

def main():
    parser = argparse.ArgumentParser(description=__doc__, formatter_class=argparse.RawDescriptionHelpFormatter)
    parser.add_argument('--at', metavar='COMMIT')
    parser.add_argument('--list', metavar='POINT')
    args = parser.parse_args()
    sources = files(args.at)
    found = collections.defaultdict(list)
    for name, text in sources.items():
        crate = name.split('/')[1]
        for n, line in enumerate(text.splitlines(), 1):
            if line.lstrip().startswith(('//', 'ghost ', 'requires', 'ensures')):
                continue
            for point, pattern in LINES.items():
                if re.search(pattern, line):
                    found[point, crate].append(f'{name}:{n}: {line.strip()}')
    found.update(facts(sources))
    if args.list:
        for (point, crate), where in sorted(found.items()):
            if point.startswith(args.list):
                print(*[f'{point} | {crate} | {w}' for w in where], sep='\n')
        return
    points = sorted({p for p, _ in found})
    for point in points:
        cells = [(c, len(w)) for (p, c), w in sorted(found.items()) if p == point]
        print(f'{point}: {sum(n for _, n in cells)} ({", ".join(f"{c} {n}" for c, n in cells)})')

if __name__ == '__main__':
    sys.exit(main())
