#!/usr/bin/env python3
"""Run `rt dev NAME` and write each proof file that it offers and that is not there yet.
usage, in the repository's root: scaffold.py NAME [--auto] [--log=FILE] [--no-simp]
--log reads what an earlier `RT_CUT=0 rt dev NAME` printed; --no-simp leaves matches as they are, to be filled by hand.
--auto writes the short form of a function without a loop and not in a cycle: every answer inline in `tie.spec`; at a `returns` that the
check leaves open `search steps` where the function's body has an `if`, else `cc`; under `unfolding SPEC`, SPEC being the head of the
function's `ensures { λ r. ⌜ r ≡ SPEC .. ⌝ }`. Where it has a `match` or more than three `if`s: `simp` with the facts on the way (paths.py).
Other holes stay `?`, as declarations of their own."""
import subprocess, sys, os, re, glob
if len(sys.argv) < 2 or not os.path.isdir(f'crates/{sys.argv[1]}'):
    sys.stderr.write('usage, in the repository\'s root: tools/scaffold.py CRATE [--auto] [--log=FILE] [--no-simp]\n')
    sys.exit(2)
name = sys.argv[1]
auto = '--auto' in sys.argv
root = os.getcwd()
here = os.path.dirname(os.path.abspath(__file__))
env = dict(os.environ, RT_CUT='0')
log = next((a[6:] for a in sys.argv if a.startswith('--log=')), None)
if log:
    lines = open(log).read().split('\n')
else:
    out = subprocess.run(['rt', 'dev', name], capture_output=True, text=True, env=env, cwd=root)
    lines = (out.stdout + out.stderr).split('\n')
src = '\n'.join(open(f).read() for f in glob.glob(f'{root}/crates/{name}/src/*.rt'))
specs = '\n'.join(open(f).read() for f in glob.glob(f'{root}/crates/*/specs/*.antt'))
ghost = {}
for m in re.finditer(r'ghost use ([^;{]+)\.\{([^}]*)\};', src):
    for n in m.group(2).split(','):
        ghost[n.strip()] = m.group(1).strip()

def of_fn(fn):
    m = re.search(r'^( *)(?:pub(?:\(crate\))? )?fn ' + re.escape(fn) + r'\b.*?^\1\}\n', src, re.S | re.M)
    text = m.group(0) if m else ''
    e = re.search(r'ensures \{ λ r\. ⌜ (?:now )?r ≡ \(?([^\s()]+)', text)
    return (e.group(1) if e else None), text

every = '\n'.join(open(f).read() for f in glob.glob(f'{root}/crates/*/src/*.rt'))

def asks(callee):
    """a function of that name has a `requires`, or none is known"""
    ts = re.findall(r'fn ' + re.escape(callee.replace('-', '_')) + r'\b[^{]*?(requires|ensures|\{)', every)
    return not ts or 'requires' in ts

def short(s, fn):
    spec, text = of_fn(fn)
    tactic = 'search steps' if re.search(r'\bif\b', text) else 'cc'
    needs = re.findall(r'^(\S+) : tie\.(Need-\S+)\n\1 c( κs)? = (.*)$', s, re.M)
    m = re.search(r'\(tie\.spec\s+(.*)\)\s*$', s, re.S)
    if not m:
        return s.replace('= ?', '= ' + tactic)
    order = m.group(1).split()
    by = {n: (need, k, t) for n, need, k, t in needs}
    args, decls, used = [], [], set()
    for n in order:
        need, k, t = by[n]
        if t == '?' and n.startswith('returns'):
            t = tactic
        if t == '?':
            t = 'search needs'
        if t == 'search needs' and k and not asks(re.sub(r'-requires(-\d+)?$', '', n)):
            t = 'tt'
        if t == '?':
            decls.append(f'{n} : tie.{need}\n{n} c{k} = ?\n')
            args.append(n)
        else:
            args.append(f'(λ c{k}. {t})')
            used.add(t)
    uses = [l for l in re.findall(r'^use .*$', s, re.M) if not re.search(r' as (?:reads|lts|\S+-reads)$', l) and 'Needs' not in l]
    if 'search needs' in used:
        uses.insert(0, 'use borrow.Author.Needs.{needs}')
    if 'search steps' in used:
        uses.insert(0, 'use Rattle·rules.proofs.Choices.{steps}' if name != 'rules' else 'use Rattle·rules·proofs.proofs.Choices.{steps}')
    unf = ''
    if spec in ghost and re.search(r'unfoldable pub ' + re.escape(spec) + ' ', specs):
        uses.insert(0, f'use {ghost[spec]}.{{{spec}}}')
        unf = f'unfolding {spec}\n'
    th = re.search(r'^pub (\S+) :', s, re.M).group(1)
    one = f'{th} = tie.close (tie.spec {" ".join(args)})'
    body = one if len(one) < 100 else f'{th} =\n    tie.close\n    (tie.spec\n    ' + '\n    '.join(args) + ')'
    return '\n'.join(uses) + '\n\n' + ''.join(d + '\n' for d in decls) + f'pub {th} : {{M : Type 1}} → statement M\n{unf}{body}\n'

again = []
i = 0
while i < len(lines):
    m = re.match(r'help: write (\S+) with these lines', lines[i])
    if not m:
        i += 1
        continue
    path = m.group(1)
    body = []
    i += 1
    while i < len(lines) and (lines[i].startswith('    ') or lines[i].strip() == ''):
        body.append(lines[i][4:])
        i += 1
    if os.path.exists(path):
        continue
    os.makedirs(os.path.dirname(path), exist_ok=True)
    s = '\n'.join(body).rstrip() + '\n'
    fn = os.path.basename(os.path.dirname(path))
    if auto and '+' not in fn and 'Inv-' not in s:
        s = short(s, fn)
    open(path, 'w').write(s)
    print('wrote', os.path.relpath(path, root))
    text = of_fn(fn)[1]
    if auto and '+' not in fn and 'Inv-' not in s and (re.search(r'\bmatch\b', text) or len(re.findall(r'\bif\b', text)) > 3):
        again.append(re.search(r'/proofs/(.*)/Proof.antt', path).group(1))
for l in lines:
    if (l.startswith(('fn ', 'logic=', 'error')) and not l.endswith(': proved')) or ': error' in l:
        print(l[:200])
# a match, or more than three branches: `simp` with the facts by their paths, in the place of `cc` or `search steps`
for fn in [] if '--no-simp' in sys.argv else again:
    subprocess.run([here + '/simp.py', name, fn])
    print('simp', fn)
