#!/usr/bin/env python3
"""wrap.py FILE..: wraps pages at 120 columns, in place. Paragraphs and list items are filled, code spans stay whole;
headings, code blocks and comments stay. A table that has a longer row becomes a list: the first cell (where it is
empty, the one above it), then the title and the cell of each other column. Wrapping a wrapped page changes nothing."""
import re
import sys
import textwrap

WIDTH = 120


def fill(text, first, rest):
    text = re.sub(r'`[^`]*`', lambda m: m.group().replace(' ', '\0'), ' '.join(text.split()))
    lines = textwrap.wrap(text, WIDTH, initial_indent=first, subsequent_indent=rest, break_long_words=False,
                          break_on_hyphens=False)
    return [line.replace('\0', ' ') for line in lines]


def cells(row):
    """The cells of a row; a bar inside a code span or after a backslash is no border."""
    parts = re.split(r'(?<!\\)\|(?=(?:[^`]*`[^`]*`)*[^`]*$)', row.strip())
    return [p.strip() for p in parts[1:-1]]


def as_list(rows):
    titles = [t[:1].upper() + t[1:] for t in cells(rows[0])]
    lines, first = [], ''
    for row in rows[2:]:
        have = cells(row)
        text = first = have[0] or first
        if len(have) == 2:
            text += ': ' + have[1]
        for title, cell in zip(titles[1:], have[1:] if len(have) > 2 else []):
            if cell:
                text += ('' if text.endswith('.') else '.') + ' ' + title + ': ' + cell
        lines += fill(text, '- ', '  ')
    return lines


def table(rows):
    return as_list(rows) if max(map(len, rows)) > WIDTH else rows


def block(lines):
    """A paragraph, or a list: an item begins with '- ' or a number."""
    out, item = [], []

    def flush():
        if item:
            head = re.match(r'( *)((?:- |\d+\. )?)', item[0])
            first = head.group(1) + head.group(2)
            out.extend(fill(' '.join(item)[len(first):], first, ' ' * len(first)))
            item.clear()

    for line in lines:
        if re.match(r' *(- |\d+\. )', line):
            flush()
        item.append(line if not item else line.strip())
    flush()
    return out


def wrap(text):
    out, group, kind = [], [], None

    def flush():
        if group:
            out.extend({'table': table, 'text': block}[kind](group))
            group.clear()

    fenced = False
    listed = False  # after a list, indented lines may go on with it
    for line in text.split('\n'):
        fence = line.startswith('```')
        code = fenced or fence or (line.startswith('    ') and not (listed and group))
        now = 'code' if code else 'table' if line.startswith('|') else 'text'
        plain = now == 'code' or not line.strip() or line.startswith('#') or line.startswith('<!--')
        if plain or now != kind:
            flush()
        if fence:
            fenced = not fenced
        if plain:
            out.append(line)
            kind, listed = None, False
        else:
            kind = now
            listed = listed or bool(re.match(r' *(- |\d+\. )', line))
            group.append(line)
    flush()
    return '\n'.join(out)


if len(sys.argv) < 2:
    sys.exit(print(__doc__, file=sys.stderr) or 2)
for name in sys.argv[1:]:
    old = open(name, encoding='utf-8').read()
    new = wrap(old)
    if wrap(new) != new:
        sys.exit('wrap.py: %s does not settle' % name)
    if new != old:
        open(name, 'w', encoding='utf-8').write(new)
        print('wrapped', name)
