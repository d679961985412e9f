#!/usr/bin/env python3
"""scanloop.py CRATE FN KIND "PREDICATE" "PARAMS" COUNTER END "USES" [UNFOLD]: the proof of a loop that scans by a test function.
KIND all:   while i < n { if p(..) { i += 1; } else { return false; } } true
KIND any:   while i < n { if p(..) { return true; } i += 1; } false
KIND first: while i < n { if p(..) { return i; } i += 1; } n
KIND count: while i < n { if p(..) { k += 1; } i += 1; } k       (COUNTER is `k i`, the call's name in the code stands behind a colon: `k i:is_before`)
FN is the folder under proofs/; PREDICATE the partly applied definition in terms of PARAMS, the parameters as the printed Inv-loop names them
before COUNTER₀ COUNTER; USES is `MODULE.{a, b}; ..`; UNFOLD the definition of the contract where it is shut."""
import os, sys
if len(sys.argv) < 9 or not os.path.isdir(f'crates/{sys.argv[1]}'):
    sys.stderr.write('usage, in the repository\'s root: tools/scanloop.py CRATE FUNCTION KIND TEST PARAMS INDEX END USES [UNFOLD]\n')
    sys.exit(2)

crate, fn, kind, pred, params, i, end, uses = sys.argv[1:9]
unfold = sys.argv[9] if len(sys.argv) > 9 else ''
call = ''
if kind == 'count':
    i, call = i.split(':')
    k, i = i.split()
    call = call.replace('_', '-')
path = f'crates/{crate}/proofs/{fn}/Proof.antt'
os.makedirs(os.path.dirname(path), exist_ok=True)
name = fn.split('/')[-1].replace('_', '-')
mod = fn.replace('/', '.')
if kind == 'count':
    laws = ['count-yes', 'count-no', 'count-done']
    needs = []
    inv = "(at-loop .loop .inv .1) (at-loop-test .loop-test .taken)"
    body = ['(λ c. omega arith)', '(λ c κs. search needs)', '(λ c. search needs)', '(λ c. search needs)', '(λ c. search needs)',
            f'''(λ c.
    let at-{call} = c .before in
    let at-loop-test = at-{call} .before in
    let at-loop = at-loop-test .before in
    (⊎-elim (λ w. omega arith) (λ w. omega arith) (c .if1 .came),
    ⊎-elim (λ w. cc (count-yes _ _ _ _ {inv} (w .0 .taken) (at-{call} .{call} .ensures)))
    (λ w. cc (count-no _ _ _ _ {inv} (w .0 .left) (at-{call} .{call} .ensures))) (c .if1 .came)))''',
            '(λ c. count-done _ _ _ _ (c .before .loop .inv .1) (c .loop-test .left))']
else:
    laws = {'all': ['all-yes', 'all-no', 'all-done'], 'any': ['any-yes', 'any-no', 'any-done'], 'first': ['first-yes', 'first-no', 'first-done']}[kind]
    needs = {'all': ['(λ c. search all-yes)', '(λ c. search all-no)', '(λ c. search all-done)'],
             'any': ['(λ c. search any-yes)', '(λ c. search any-no)', '(λ c. search any-done)'],
             'first': ['(λ c. search first-yes)', '(λ c. search first-no)', '(λ c. search first-done)']}[kind]
if kind == 'all':
    body = ['(λ c. refl)', '(λ c κs. search needs)', '(λ c. search needs)', '(λ c. search needs)', needs[0], needs[1], needs[2]]
elif kind != 'count':
    body = ['(λ c. refl)', '(λ c κs. search needs)', needs[0], '(λ c. search needs)', '(λ c. search needs)', needs[1], needs[2]]
lines = ['use mathlib.Core.Path.{_≡_, refl}', 'use Prim.Native.Nat.{_-_}', 'use borrow.Author.Needs.{needs}', f'use Rattle·rules.specs.Scan.{{{kind}}}', f'use Rattle·rules.proofs.Scans.{{{", ".join(laws)}}}']
lines += [f'use {u.strip()}' for u in uses.split(';') if u.strip()]
lines += [f'use Rattle·{crate}·proofs.proofs.{mod}.Statement.{{statement}}', f'use Rattle·{crate}·proofs.proofs.{mod}.Tie as tie', '']
if kind == 'count':
    lines[1] = 'use Prim.Native.Nat.{_+_, _-_, _≤_}'
    lines[2:2] = ['use mathlib.Core.Logic.{⊎-elim}', 'use native.Mathlib.Omega.{arith}']
    lines += ['abbrev Inv-loop : tie.InvT-loop', f'Inv-loop {params} {k}₀ {i}₀ {k} {i} = ({k} ≤ {i}) × ({k} + count ({pred}) {i} {end} ≡ count ({pred}) 0 {end})', '']
    params = f'{params} {k}₀'
    lines += ['abbrev μ-loop : tie.MeasureT-loop', f'μ-loop {params} {i}₀ {k} {i} = {end} - {i}', '']
else:
    lines += ['abbrev Inv-loop : tie.InvT-loop', f'Inv-loop {params} {i}₀ {i} = {kind} ({pred}) {i} {end} ≡ {kind} ({pred}) 0 {end}', '']
    lines += ['abbrev μ-loop : tie.MeasureT-loop', f'μ-loop {params} {i}₀ {i} = {end} - {i}', '']
lines += [f'pub {name}-spec : {{M : Type 1}} → statement M'] + ([f'unfolding {unfold}'] if unfold else [])
lines += [f'{name}-spec =', '    tie.close', '    (tie.spec', '    Inv-loop', '    μ-loop'] + ['    ' + b for b in body[:-1]] + ['    ' + body[-1] + ')']
open(path, 'w').write('\n'.join(lines) + '\n')
