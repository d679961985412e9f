#!/usr/bin/env python3
"""Names the points of the way that a proof speaks of, so that no path into `c` is longer than two steps.
usage, in the repository's root: name-facts.py CRATE [FN..] [--all] [--keep[=DIR]] [--quick]     FN as its folder under proofs/, as `names/add_name`; none: each in the crate
In each `λ c. BODY` and `NAME c .. = BODY` of FN's Proof.antt that has three or more `.before` in a row,

    (λ c. rw (c .put3 .ensures, c .before .before .put2 .ensures, c .before .before .before .before .before .put .ensures))

becomes

    (λ c.
    let at-put2 = c .before .before in
    let at-slice-known2 = at-put2 .before .before in
    let at-put = at-slice-known2 .before in
    rw (c .put3 .ensures, at-put2 .put2 .ensures, at-put .put .ensures))

A point is named by what stands there, a call, a branch, a loop (`at-put2`, `at-if1`, `at-loop`; `at-entry` is where the function is entered), and is
reached from the nearest later one. So where an edit of the function adds a call or takes one away, only the `let` that steps over it has to change; and this
tool, run again, finds each named point where it stands now and writes the `let`s anew (calls of one function are counted: a new first `put` makes `put2`
of the old one, which is to be renamed first).
chain.py and simp.py end with it. --all: bodies with shorter paths too. --keep: read what an earlier `rt dev CRATE --generated DIR` wrote (DIR: target/gen if
not given), else that runs first. --quick: read the proof alone; a point between two, that it does not speak of, is then named by the later of these,
`before-put2`, until a run without --quick names it by what stands there."""
import glob, os, re, subprocess, sys
flags = [a for a in sys.argv[1:] if a.startswith('--')]
words = [a for a in sys.argv[1:] if not a.startswith('--')]
if not words or not os.path.isdir(f'crates/{words[0]}') or any(f not in ('--all', '--keep', '--quick') and not f.startswith('--keep=') for f in flags) \
        or any(not os.path.isfile(f'crates/{words[0]}/proofs/{f}/Proof.antt') for f in words[1:]):
    sys.stderr.write('usage, in the repository\'s root: tools/name-facts.py CRATE [FUNCTION..] [--all] [--keep[=DIR]] [--quick]\n')
    sys.exit(2)
crate, root = words[0], os.getcwd()
gen = next((f[7:] for f in flags if f.startswith('--keep=')), f'{root}/target/gen')
base = f'{root}/crates/{crate}/proofs'
fns = words[1:] or sorted(os.path.relpath(os.path.dirname(p), base) for p in glob.glob(glob.escape(base) + '/**/Proof.antt', recursive=True))
LONG = r'\.before\s+\.before\s+\.before\b'
LET = re.compile(r'let ((?:at|before)-[^\s()]+) = (c|(?:at|before)-[^\s()]+)((?: \.before)+) in\s+')
ENTRY = ('κs', 'args', 'good', 'pre')
PLAIN = re.compile(r'(-known|-arg|-told|fits)\d*$')      # what the language puts on the way: a call or a branch makes the better name


def ways(fn):
    """for each need of the function, in order, what stands at each point of the way: [(need, [fields at c, fields at c .before, ..])]"""
    out = []
    for f in sorted(glob.glob(glob.escape(f'{gen}/Rattle·{crate}·proofs/proofs/{fn}') + '/Lts*.antt')):
        recs, cur, deep = {}, None, 0
        text = open(f).read()
        for line in text.split('\n'):
            ind = len(line) - len(line.lstrip())
            m = re.match(r'\s+pub record (\S+) : Type 0 where', line)
            if m:
                cur, deep = m.group(1), ind
                recs[cur] = {}
                continue
            m = re.match(r'\s+pub (\S+) :(.*)', line)
            if m and cur and ind == deep + 2:
                recs[cur][m.group(1)] = m.group(2).strip()
            elif line.strip() and ind <= deep:
                cur = None
        for need, rec in re.findall(r'\n +Need-(\S+) =\s+\(c : ([^\s)]+)', text):
            way = []
            while rec in recs:
                way.append([x for x in recs[rec] if x != 'before'])
                rec = recs[rec].get('before', '').split(' ')[0]
            out.append((need, way))
    return out


def closing(s, i):
    """the place of the parenthesis or brace that closes the one at i"""
    depth = 0
    for j in range(i, len(s)):
        depth += (s[j] in '([{') - (s[j] in ')]}')
        if depth == 0:
            return j
    return len(s)


def arguments(s):
    """where each argument of the last `.spec` starts"""
    m = None
    for m in re.finditer(r'\.spec(?=[\s(])', s):
        pass
    out, i = [], m.end() if m else len(s)
    while i < len(s) and s[i] != ')':
        if s[i].isspace():
            i += 1
            continue
        out.append(i)
        if s[i] in '([{':
            i = closing(s, i) + 1
        else:
            i = re.compile(r'[^\s()]+').match(s, i).end()
    return out


def bodies(s):
    """(start, end, need or None) of each body over `c`, from the last to the first"""
    args, out = arguments(s), []
    for m in re.finditer(r'\(λ c(?: [^\s.()]+)*\.\s+', s):
        out.append((m.end(), closing(s, m.start()), args.index(m.start()) - len(args) if m.start() in args else None))
    for m in re.finditer(r'^( *)(\S+) c(?: [^\s=()]+)* =\s+', s, re.M):
        end = re.compile(r'^ {0,%d}\S' % len(m.group(1)), re.M).search(s, m.end())
        text = s[m.end():end.start() if end else len(s)]
        stop = re.search(r'\n\s+where\b', text)
        t = re.search(r'^ *' + re.escape(m.group(2)) + r' : tie\.Need-(\S+)', s, re.M)
        out.append((m.end(), m.end() + len((text[:stop.start()] if stop else text).rstrip()), t.group(1) if t else None))
    return sorted(out, reverse=True)


def place(way, name):
    return next((k for k, fs in enumerate(way) if name in fs or (name == 'entry' and 'args' in fs)), None)


def label(way, k):
    return 'entry' if set(ENTRY) & set(way[k]) else way[k][0]


def spoken(body):
    """the way as far as the body itself tells it: nothing at the points that it does not speak of"""
    if LET.search(body):
        return []
    paths = [(m.group(1).count('.before'), m.group(2)) for m in re.finditer(r'(?<![^\s(])c((?:\s+\.before)+)(?:\s+\.([^\s().,}]+))?', body)]
    return [[f for f in dict.fromkeys(f for j, f in paths if j == k) if f] for k in range(max(j for j, _ in paths) + 1)]


def named(body, way, taken, indent):
    """the body with its points named, or None where a path of it does not lead along this way"""
    old = {n[3:].removesuffix('-point') for n, _, _ in LET.findall(body) if n.startswith('at-')}
    text = LET.sub('', body)
    used, wrong = set(), []

    def at(k):
        used.add(k)
        return f'«{k}»'

    def found(m, k, field):
        """a path to point k, or to where its field stands now if that is elsewhere"""
        if field and k is not None and not (k < len(way) and field in way[k]):
            k = place(way, field)
        if k is None or k >= len(way):
            wrong.append(m.group(0))
            return m.group(0)
        return (at(k) if k else 'c') + (f' .{field}' if field else '')

    steps = r'((?:\s+\.before)%s)(?:\s+\.([^\s().,}]+))?(?![^\s().,}])'
    text = re.sub(r'(?<![^\s(])c' + steps % '+', lambda m: found(m, m.group(1).count('.before'), m.group(2)), text)
    for n in old:
        k = place(way, n)
        text = re.sub(r'(?<![^\s(])at-' + re.escape(n) + '(?:-point)?' + steps % '*',
                      lambda m: found(m, k if k is None else k + m.group(1).count('.before'), m.group(2)), text)
    if wrong or not used:
        return None
    # the fewest points between, no two further than two steps from each other; of these the ones with the better names
    ks = sorted(used)
    best = {0: (0, 0, None)}
    for k in range(1, ks[-1] + 1):
        for j in (k - 1, k - 2):
            if j in best and not any(j < u < k for u in ks):
                n, plain, _ = best[j]
                cost = (n + 1, plain + (k not in used and (not way[k] or PLAIN.search(label(way, k)) is not None)), j)
                if k not in best or cost[:2] < best[k][:2]:
                    best[k] = cost
    points, k = [], ks[-1]
    while k:
        points.append(k)
        k = best[k][2]
    names, lets, last, later, nth = {0: 'c'}, '', 0, 'c', 1
    for k in reversed(points):
        if way[k]:
            later, nth = label(way, k), 1
            names[k] = 'at-' + later + ('-point' if 'at-' + later in taken else '')
        else:
            names[k] = f'before-{later}' + (f'-{nth}' if nth > 1 else '')
            nth += 1
        lets += f'let {names[k]} = {names[last]}{" .before" * (k - last)} in\n{indent}'
        last = k
    if re.match(r'\(\s*\n', text):
        lets = lets.rstrip() + ' '      # as `rt fmt` lays it out
    return lets + re.sub(r'«(\d+)»', lambda m: names[int(m.group(1))], text)


if not any(f.startswith(('--keep', '--quick')) for f in flags):
    subprocess.run(['rt', 'dev', crate, '--generated', gen], capture_output=True)
for fn in fns:
    p = f'{base}/{fn}/Proof.antt'
    s = open(p).read()
    if not ('.before' in s if '--all' in flags else re.search(LONG, s) or LET.search(s)):
        continue
    needs = ways(fn)
    taken = set(re.findall(r'at-[^\s(){},]+', LET.sub('', s))) - {n for n, _, _ in LET.findall(s)}
    new = s
    for start, end, need in bodies(s):
        body = s[start:end]
        if not ('.before' in body if '--all' in flags else re.search(LONG, body) or LET.search(body)):
            continue
        if '--quick' in flags:
            tried = [spoken(body)]
        elif isinstance(need, int) and -need <= len(needs):
            tried = [needs[need][1]]
        else:
            tried = [w for n, w in needs if n == need] or [w for _, w in needs]
        head = s[s.rfind('\n', 0, start) + 1:start]
        ind = re.match(r' *', head).group(0)
        # a body that starts on a line of its own stays there
        own = head.strip() == ''
        indent = ind if own or '(λ c' in head else ind + '    '      # as `rt fmt` lays it out
        out = next((b for b in (named(body, w, taken, indent) for w in tried) if b), None)
        if out is None:
            print(f'left {fn} {need}: its paths are not on the way of its need')
            continue
        new = new[:start] + (out if own else '\n' + indent + out) + new[end:]
        if not own:
            new = new[:start].rstrip(' ') + new[start:]
    if new != s:
        open(p, 'w').write(new)
        print('named', fn)
