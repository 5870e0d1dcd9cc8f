"""Writes wanted answers, a program's output, as data of aq_run."""
import re

from data import listed, text, value
from grammar import Skip
from answers_text import unquoted


def row_value(s):
    vals = []
    i = 0
    if s == '':
        return []
    while True:
        if s[i] == "'":
            j = i + 1
            v = ''
            while True:
                if s[j] == "'":
                    if s[j + 1:j + 2] == "'":
                        v += "'"
                        j += 2
                        continue
                    break
                v += s[j]
                j += 1
            vals.append(('text', v))
            i = j + 1
        else:
            m = re.match('[^,)]+', s[i:])
            w = m.group()
            i += len(w)
            vals.append(None if w == 'null' else True if w == 'true' else False if w == 'false' else ('int', int(w)))
        if s[i:i + 2] == ', ':
            i += 2
            continue
        return (vals, i)


def row_of(s):
    assert s[0] == '('
    v, i = row_value(s[1:])
    return (v, s[1 + i + 1:])


def row(v):
    return listed([value(x) for x in v])


def reply(t):
    if t.startswith('ERROR '):
        return 'replies.Error (record { 0 = %s }) (%s)' % (text(t[6:11]), text(t[12:]))
    if t.startswith('WARNING '):
        return 'replies.Warning (record { 0 = %s }) (%s)' % (text(t[8:13]), text(t[14:]))
    if t.startswith('DETAIL '):
        return 'replies.Detail (%s)' % text(t[7:])
    if t.startswith('('):
        return 'replies.Row %s' % row(row_of(t)[0])
    return 'replies.Tag (%s)' % text(t)


def split_words(s):
    out = []
    i = 0
    while i < len(s):
        if s[i] == ' ':
            i += 1
            continue
        if s[i] == '"':
            j = i + 1
            while s[j] != '"' or s[j + 1:j + 2] == '"':
                j += 2 if s[j] == '"' else 1
            out.append(s[i:j + 1])
            i = j + 1
        elif s[i] == '(':
            v, rest = row_of(s[i:])
            out.append(v)
            i = len(s) - len(rest)
        else:
            m = re.match('[^ ]+', s[i:])
            out.append(m.group())
            i += len(m.group())
    return out


def old_new(x):
    return 'None' if x == '-' else '(Some %s)' % row(x)


def trace(line):
    w = split_words(line)
    s = text(unquoted(w[1]))
    k = w[2]
    a = w[3:]
    c = lambda v: '(record { 0 = %s })' % text(v)
    if k == 'begin':
        return 'traces.Begin (%s) isolations.%s' % (s, 'ReadCommitted' if a[0] == 'rc' else 'RepeatableRead')
    if k in ('open', 'close'):
        return 'traces.%s (%s) %s' % (k.capitalize(), s, a[0])
    if k == 'change':
        ev = []
        r = a[4:]
        for i in range(0, len(r), 3):
            ev.append('record { no = %s; trigger = %s }' % (r[i + 1], text(unquoted(r[i + 2]))))
        return 'traces.Change (%s) (%s) %s %s %s %s' % (s, text(unquoted(a[0])), a[1], old_new(a[2]), old_new(a[3]), listed(ev))
    if k == 'drop':
        return 'traces.Dropped (%s) %s' % (s, a[0])
    if k == 'queue':
        return 'traces.Queue (%s) %s (%s)' % (s, a[0], text(unquoted(a[1])))
    if k == 'round':
        return 'traces.Round (%s)' % s
    if k == 'fire':
        return 'traces.Fire (%s) %s' % (s, a[0])
    if k == 'done':
        return 'traces.Done (%s) %s %s' % (s, a[0], '(endings.Acted %s)' % a[2] if a[1] == 'acted' else 'endings.' + a[1].capitalize())
    if k == 'mode':
        return 'traces.Mode (%s) %s modes.%s' % (s, 'mode_of.All' if a[0] == 'all' else '(mode_of.Named (%s))' % text(unquoted(a[0])), a[1].capitalize())
    if k in ('savepoint', 'release', 'back'):
        return 'traces.%s (%s) (%s)' % (k.capitalize(), s, text(unquoted(a[0])))
    if k in ('block', 'unblock'):
        return 'traces.%s (%s) %s' % (k.capitalize(), s, a[0])
    if k == 'caught':
        return 'traces.Caught (%s) %s %s' % (s, a[0], c(a[1]))
    if k in ('wait', 'victim'):
        return 'traces.%s (%s) %s' % (k.capitalize(), s, listed([text(unquoted(x)) for x in a]))
    if k == 'missing':
        return 'traces.Missing (%s) %s %s' % (s, row(a[0]), a[1])
    if k == 'pair':
        return 'traces.Pair (%s) %s %s' % (s, a[0], a[1])
    if k == 'fail':
        return 'traces.Fail (%s) %s' % (s, c(a[0]))
    if k == 'drain':
        return 'traces.Drain (%s)' % s
    if k == 'commit':
        return 'traces.Commit (%s) %s' % (s, a[0])
    if k == 'abort':
        return 'traces.Abort (%s)' % s
    if k == 'reply':
        return 'traces.Reply (%s) %s' % (s, a[0])
    if k == 'end':
        return 'traces.End (%s)' % s
    raise Skip('trace ' + k)


def wanted(output, names):
    replies = []
    tables = []
    lines_told = []
    items = None
    for l in output.split('\n'):
        if not l:
            continue
        m = re.match('(\\S+?)\\.(\\d+): (.*)$', l)
        if l.startswith('trace '):
            lines_told.append(trace(l))
        elif l.startswith('schedule'):
            items = []
            for it in l.split()[1:]:
                n, c = it.rsplit('*', 1) if '*' in it else (it, '1')
                items.append((names.index(unquoted(n)), int(c)))
        elif l.startswith('table '):
            tables.append([])
        elif tables and l.startswith('('):
            tables[-1].append(row(row_of(l)[0]))
        elif m:
            replies.append('record { session = %d; statement = %s; line = %s }' % (names.index(unquoted(m.group(1))), m.group(2), reply(m.group(3))))
        else:
            raise Skip('output ' + l)
    return (replies, tables, lines_told, items)


def schedule(items):
    if not items:
        return '[]'
    return ' ++ '.join(('replicate %d %d' % (c, s) for s, c in items))


def refusal(line):
    m = re.match('aqueue: schedule place (\\d+): session "(.*)" is not known$', line)
    if m:
        return 'Unknown %s (%s)' % (m.group(1), text(m.group(2)))
    m = re.match('aqueue: schedule place (\\d+): session "(.*)" is not enabled$', line)
    if m:
        return 'Disabled %s (%s)' % (m.group(1), text(m.group(2)))
    m = re.match('aqueue: schedule ends at place (\\d+) before session "(.*)" has ended$', line)
    if m:
        return 'Unfinished %s (%s)' % (m.group(1), text(m.group(2)))
    raise Skip(line)
