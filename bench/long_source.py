#!/usr/bin/python3
"""long_source.py N: a C source of N structures and N functions that use them, on standard output; the same for the same N."""
import random
import sys

n = int(sys.argv[1])
dice = random.Random(1)
kinds = ['int', 'unsigned char', 'long', 'double', 'short', 'unsigned long', 'const char *', 'void *']
print('typedef unsigned int number;')
for i in range(n):
    fields = ['    %s f%d;' % (dice.choice(kinds), k) for k in range(dice.randrange(2, 9))]
    if i:
        fields.append('    struct s%d *next;' % dice.randrange(i))
        fields.append('    struct s%d inside;' % dice.randrange(max(0, i - 3), i) if i % 7 == 1 else '    number count;')
    print('struct s%d {\n%s\n};' % (i, '\n'.join(fields)))
    if i % 3 == 0:
        print('typedef struct s%d t%d;\nenum e%d { %s };' % (i, i, i, ', '.join('e%d_%d' % (i, k) for k in range(4))))
    print('%sstruct s%d g%d;' % (dice.choice(['static ', '']), i, i))
    print('static int inline_%d(struct s%d *p, int k) { int r = k * %d; for (int j = 0; j < k; j++) r += (int)(long)p->f%d + j; return r; }'
          % (i, i, i + 1, 0) if 'double' not in fields[0] else
          'static int inline_%d(struct s%d *p, int k) { return (int)p->f0 + k; }' % (i, i))
    callee = dice.randrange(i + 1)
    print('int f%d(struct s%d *p, int k, const char *name)\n{\n    int sum = inline_%d(p, k);\n    struct s%d *q = &g%d;\n    if (k > %d) {\n        long step = k - 1;\n'
          '        sum += inline_%d(q, (int)step) + name[0];\n    }\n    return sum;\n}' % (i, i, i, callee, callee, i % 10, callee))
