#!/usr/bin/env python3
"""Write specs/Computing.antt of the crates rules and script_rules anew: one definition whose `unfolding` line names every shut definition of the
crate's rules, and of the rules below them, so that a proof by computation says `unfolding computing` and no more. Run it in the repository's root
when a definition comes or goes."""
import re
import os, sys
if len(sys.argv) > 1 or not os.path.isdir('crates/rules'):
    sys.stderr.write('usage, in the repository\'s root: tools/computing.py\n')
    sys.exit(2)


def write(crate, what, below=None):
    lib = open(f'crates/{crate}/specs/Lib.antt').read()
    modules = [m for m in re.findall(r'^pub mod (\S+)$', lib, re.M) if m != 'Computing']
    uses, names = [], []
    if below:
        uses.append(f'use Rattle.{below}.specs.Computing.{{computing as {below}-computing}}')
        names.append(f'{below}-computing')
    for m in modules:
        found = re.findall(r'^unfoldable pub (\S+) :', open(f'crates/{crate}/specs/{m}.antt').read(), re.M)
        if found:
            uses.append(f'use Rattle.{crate}.specs.{m}.{{{", ".join(found)}}}')
            names += found
    with open(f'crates/{crate}/specs/Computing.antt', 'w') as f:
        f.write(f'-- Opens every definition of {what}, for proofs by computation: `unfolding computing`. Written by tools/computing.py.\n')
        f.write('use Rattle.std.specs.Prelude.{Bool, true}\n' + '\n'.join(uses) + '\n\n')
        f.write('unfoldable pub computing : Bool\nunfolding ' + ' '.join(names) + '\ncomputing = true\n')


write('rules', 'the rules')
write('script_rules', 'the rules of scripts, and of the store', below='rules')
