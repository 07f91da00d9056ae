#!/usr/bin/env python3
"""kinds.py FOLDER [MOST]: what callgrind, or an emulator's plugin, counted for each kind of ring, ours against careful C, the slowest first.
Status 1 above MOST (1.5) times careful C."""
import glob, os, re, sys
if len(sys.argv) not in (2, 3):
    sys.exit(print(__doc__, file=sys.stderr) or 2)
out, most_allowed = sys.argv[1], float(sys.argv[2]) if len(sys.argv) == 3 else 1.5


def totals(drain):
    """one number a drain, in the order of the calls"""
    if os.path.exists('%s/kinds.%s.counts' % (out, drain)):
        return [int(n) for n in open('%s/kinds.%s.counts' % (out, drain))]
    found = []
    for path in glob.glob('%s/kinds.%s.*' % (out, drain)):
        m = re.search(r'\.(\d+)$', path)
        if m:
            t = re.search(r'^(?:totals|summary): (\d+)', open(path).read(), re.M)
            found.append((int(m.group(1)), int(t.group(1)) if t else 0))
    return [n for _, n in sorted(found) if n > 0]


names = re.findall(r'^kind (\S+) answer (\d+)', open('%s/kinds.ours.names' % out).read(), re.M)
ours, careful = totals('ours'), totals('careful')
if not len(ours) == len(careful) == 2 * len(names):
    sys.exit('kinds.py: %d names, %d and %d counts' % (len(names), len(ours), len(careful)))
rows = []
for i, (name, answer) in enumerate(names):
    mine, theirs = (ours[2 * i + 1] - ours[2 * i]) / 32, (careful[2 * i + 1] - careful[2 * i]) / 32
    rows.append((mine / theirs, name, int(answer), mine, theirs))
rows.sort(reverse=True)
print('kinds of rings: instructions a record more, ours and careful C; %d kinds, above 1.0: %d, 1.2: %d, 1.5: %d, 2: %d' % (
    len(rows), *(sum(r[0] > most for r in rows) for most in (1.0, 1.2, 1.5, 2))))
for ratio, name, answer, mine, theirs in rows[:12]:
    print('%-20s answer %2d %8.1f %8.1f %6.2f' % (name, answer, mine, theirs, ratio))
sys.exit(rows[0][0] > most_allowed)
