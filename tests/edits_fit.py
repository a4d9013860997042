#!/usr/bin/python3
"""edits_fit: says which must-fail edits (crates/CRATE/must-fail and tests/edits/CRATE: lines file:, old:, new:) do not fit
the files of their crate as they stand: each old text stands there exactly once, after the pairs before it."""
import glob
import os
import sys

os.chdir(os.path.join(os.path.dirname(os.path.abspath(__file__)), '..'))


def misfit(edit, folder):
    texts, path, old, pairs = {}, None, None, 0
    with open(edit, encoding='utf-8') as f:
        for line in f.read().split('\n'):
            word, _, rest = line.partition(': ')
            if word == 'file':
                path = '%s/%s' % (folder, rest)
                if not os.path.exists(path):
                    return 'there is no %s' % path
                if path not in texts:
                    with open(path, encoding='utf-8') as g:
                        texts[path] = g.read()
            elif word == 'old':
                old = rest
            elif word in ('new', 'new:'):
                if path is None or old is None:
                    return 'a new text without a file or an old text'
                count = texts[path].count(old)
                if count != 1:
                    return 'an old text stands %d times in %s' % (count, path)
                if rest == old:
                    return 'a new text is the old one'
                texts[path], old, pairs = texts[path].replace(old, rest), None, pairs + 1
    return None if pairs else 'it has no pair of texts'


bad = 0
for edit in sorted(glob.glob('crates/*/must-fail/*.edit') + glob.glob('tests/edits/*/*.edit')):
    crate = edit.split('/')[1 if edit.startswith('crates/') else 2]
    said = misfit(edit, 'crates/' + crate)
    if said:
        print('%s: %s' % (edit, said), file=sys.stderr)
        bad = 1
sys.exit(bad)
