#!/usr/bin/env python3
"""simp.py CRATE FN: put the answers of `paths.py CRATE FN --simp` in the place of `search steps`, `search flags` or `cc` at the returns, in order,
with its long paths named by name-facts.py"""
import subprocess, sys, re, os
if len(sys.argv) < 3 or not os.path.isdir(f'crates/{sys.argv[1]}'):
    sys.stderr.write('usage, in the repository\'s root: tools/simp.py CRATE FUNCTION\n')
    sys.exit(2)
crate, fn = sys.argv[1:3]
root = os.getcwd()
here = os.path.dirname(os.path.abspath(__file__))
out = subprocess.run([here + '/paths.py', crate, fn, '--simp'], capture_output=True, text=True).stdout
ans = [re.match(r'\S+\s+(.*)', l).group(1) for l in out.strip().split('\n')]
p = f'{root}/crates/{crate}/proofs/{fn}/Proof.antt'
s = open(p).read()
it = iter(ans)
s = re.sub(r'\(λ c\. (?:search steps|search flags|cc)(?: depth \d+)?\)', lambda m: next(it), s)
if ('not-true (' in s or 'not-false (' in s) and 'Tests' not in s:
    s = 'use borrow.Author.Tests.{not-true, not-false}\n' + s
s = re.sub(r'use Rattle·rules.proofs.Choices.*\n', '', s)
open(p, 'w').write(s)
subprocess.run([here + '/name-facts.py', crate, fn, f'--keep={root}/target/generated-{crate}'])
