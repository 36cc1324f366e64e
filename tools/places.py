"""Where the code reads as an older language would have it: places by point, over crates/*/src.

places.py            the number of places of each kind
places.py KIND       the places of one kind, a line each

Run it from the repository's root, or give the root of another checkout in ROOT. A line is a place to look at: docs/DESIGN-PASS.md says which
are none and which stay. Kinds and what they find:
  refusals   functions that answer a refusal by its number (a u16 whose contract names a refusal or an answer)
  literals   numbers returned as they stand (`return 11;`)
  sentinels  functions that answer one more than a value, or 0 for none
  flags      structs with a field that says whether or why the others count
  kinds      fields and constants that are numbers for a state, a fault or a refusal
  twins      functions of one contract (equal `ensures`) beside another
  loops      `while`
  derives    structs and enums that derive Drop alone
  written    functions that write text by hand, at a place of a lent row
  converted  conversions and comparisons by hand
  facts      facts in the `requires` of three or more functions, a line for each function
  tuples     functions that share four or more parameters with three or more others
  lengths    functions that are given a row and a place or a count in it, and answer the next
  steps      functions that switch on a number for a step
  answers    lines of answers and of walks by hand in proofs/
"""
import collections, glob, itertools, os, re, sys

root = os.environ.get('ROOT', '.')
C_CRATES = {'gilstavo', 'gilstavo_c'}


def close(text, at, pair):
    """The place behind the bracket that closes the one before `at`."""
    depth = 1
    while depth:
        depth += (text[at] == pair[0]) - (text[at] == pair[1])
        at += 1
    return at


def functions():
    start = re.compile(r'^[ \t]*(?:pub(?:\([a-z]+\))? )?(?:const )?(?:extern "C" )?fn (\w+)(?:<[^>]*>)?\(', re.M)
    for path in sorted(glob.glob(root + '/crates/*/src/**/*.rt', recursive=True)):
        text = open(path).read()
        for m in start.finditer(text):
            end = close(text, m.end(), '()')
            given = [p.strip() for p in re.split(r',(?![^<\[(]*[>\])])', text[m.end():end - 1]) if p.strip()]
            result = re.match(r'\s*->\s*([^\n{]*)', text[end:])
            at = end + (result.end() if result else 0)
            clauses = []
            while c := re.match(r'\s*(requires|ensures)\s*(\w+)?\s*\{', text[at:]):
                stop = close(text, at + c.end(), '{}')
                clauses.append((c[1], c[2], ' '.join(text[at + c.end():stop - 1].split())))
                at = stop
            body = ''
            if b := re.match(r'\s*\{', text[at:]):
                body = text[at + b.end():close(text, at + b.end(), '{}') - 1]
            above = []
            for line in reversed(text[:m.start()].rstrip('\n').split('\n')):
                if not re.match(r'\s*(//|#\[)', line):
                    break
                above.append(line)
            crate = os.path.relpath(path, root).split('/')[1]
            yield dict(crate=crate, name=m[1], at=f'{crate}::{m[1]}', given=given, result=result[1].strip() if result else '',
                       clauses=clauses, body=body, above=' '.join(above))


def structs():
    for path in sorted(glob.glob(root + '/crates/*/src/**/*.rt', recursive=True)):
        text = open(path).read()
        for m in re.finditer(r'((?:^#\[[^\n]*\]\n)*)^(?:pub )?(struct|enum) (\w+)[^;{]*\{', text, re.M):
            yield os.path.relpath(path, root).split('/')[1] + '::' + m[3], m[1], m[2], text[m.end():close(text, m.end(), '{}') - 1]


all_functions = list(functions())
all_structs = list(structs())


def ensures(f):
    return [c for k, _, c in f['clauses'] if k == 'ensures']


def refusals():
    word = re.compile(r'refused|_refusal|\banswer|\.answer|hand_out|fit_answer|answer_at|convert |\bbuilt |_order')
    return [f['at'] for f in all_functions if f['result'] == 'u16' and f['crate'] not in C_CRATES
            and any(word.search(c) for c in ensures(f)) and f['at'] not in ('base::number', 'base::answer')]


def literals():
    return [f"{f['at']} {n}" for f in all_functions for n in re.findall(r'return (\d+);', f['body'])]


def sentinels():
    return [f['at'] for f in all_functions
            if any('option_of' in c for c in ensures(f)) or re.search(r'[Oo]ne more than|0 for none|0 where', f['above'])]


def flags():
    field = re.compile(r'\b(answer|sound|more|failed|fault|said|cut|odd|second): (u16|u8|bool|usize)')
    return [f'{name} {m[0]}' for name, _, kind, body in all_structs for m in field.finditer(body)]


def kinds():
    found = [f'{name} {m[0]}' for name, _, _, body in all_structs for m in re.finditer(r'\b(mode|fault|kind|state): \w+', body)]
    for path in sorted(glob.glob(root + '/crates/*/src/**/*.rt', recursive=True)):
        crate = os.path.relpath(path, root).split('/')[1]
        for m in re.finditer(r'^const ((?:NO_CHOICE|ENDED|OUT_OF_SHAPE|NO_BUDGET|BETWEEN|HALF|WITHIN|COMMENT|VALUE)\w*): \w+', open(path).read(), re.M):
            found.append(f'{crate} {m[1]}')
    return found + [f"{f['at']} {p}" for f in all_functions for p in f['given'] if re.match(r'(second|odd|cut|k|fault|mode): (bool|u8|usize)$', p)
                    and (p.startswith(('second', 'odd', 'cut', 'fault', 'mode')))]


def twins():
    groups = collections.defaultdict(list)
    for f in all_functions:
        if ensures(f) and f['crate'] not in C_CRATES:
            groups[tuple(sorted(ensures(f)))].append(f['at'])
    return [f'{a} with {", ".join(g[:1])}' for g in groups.values() if len(g) > 1 for a in g[1:]]


def loops():
    return [f"{f['at']} {w.strip()}" for f in all_functions for w in re.findall(r'\bwhile ([^\n{]*)\{', f['body'])]


def derives():
    return [name for name, attributes, _, _ in all_structs if '#[derive(Drop)]' in attributes]


def written():
    return [f['at'] for f in all_functions if any('Wrote' in c for c in ensures(f))]


def converted():
    name = re.compile(r'(end_of|end_word|end_at|walk_of|put_walk|joined|put_word|is_before|less|counted|smaller|product|is_blank|is_torn|has_ended|later)$')
    return [f['at'] for f in all_functions if name.match(f['name'])]


def facts():
    found = collections.defaultdict(set)
    for f in all_functions:
        for kind, _, clause in f['clauses']:
            for part in re.split(r'\s×\s', clause) if kind == 'requires' else []:
                part = part.strip(' ()')
                head = re.match(r'[A-Z]\w*', part)
                found[head[0] if head else part].add(f['at'])
    return [f'{fact} | {at}' for fact, where in sorted(found.items(), key=lambda e: -len(e[1])) if len(where) > 2 for at in sorted(where)]


def tuples():
    sets = {f['at']: {re.sub(r'^mut ', '', p) for p in f['given'] if ':' in p} for f in all_functions if f['crate'] not in C_CRATES}
    found = set()
    for at, given in sets.items():
        for four in itertools.combinations(sorted(given), 4):
            if sum(set(four) <= other for other in sets.values()) > 3:
                found.add(at)
                break
    return sorted(found)


def lengths():
    return [f['at'] for f in all_functions if re.match(r'usize|Piece|Input', f['result'])
            and any(re.search(r': &mut \[u(8|16)\]', p) for p in f['given'])
            and any(re.match(r'(p|at|place|count|size|to|i): usize', p) for p in f['given'])]


def steps():
    return [f['at'] for f in all_functions if re.search(r'\b(s\.mode|mode|fault|s\.fault|part|k) == (\d|[A-Z])', f['body'])]


def answers():
    count = []
    for path in sorted(glob.glob(root + '/crates/*/proofs/**/*.antt', recursive=True)):
        if os.path.basename(path) in ('Answers.antt', 'Proof.antt', 'Invariants.antt'):
            count += [os.path.relpath(path, root)] * len(open(path).read().splitlines())
    return count


KINDS = [refusals, literals, sentinels, flags, kinds, twins, loops, derives, written, converted, facts, tuples, lengths, steps, answers]

if len(sys.argv) > 1:
    for kind in KINDS:
        if kind.__name__ == sys.argv[1]:
            print('\n'.join(kind()))
else:
    for kind in KINDS:
        print(f'{kind.__name__:10} {len(kind())}')
