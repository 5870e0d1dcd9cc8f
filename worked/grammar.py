"""Reads the statements of a script as trees of names: tuples that begin with the form."""
import re


KIND = {'integer': 'Integer', 'int': 'Integer', 'int4': 'Integer', 'bigint': 'Bigint', 'int8': 'Bigint', 'boolean': 'Boolean', 'bool': 'Boolean', 'text': 'Text'}
class Skip(Exception):
    pass


TOKEN = re.compile('\\s+|--[^\\n]*|(?P<dollar>\\$\\$)|(?P<text>\'(?:[^\']|\'\')*\')|(?P<quoted>"(?:[^"]|"")*")|(?P<word>[A-Za-z_][A-Za-z_0-9$]*)|(?P<int>[0-9]+)|(?P<dir>\\\\[a-z]+)|(?P<op><=|>=|<>|!=|[-+*=<>(),;.])', re.X)
def tokens(s):
    out = []
    i = 0
    while i < len(s):
        m = TOKEN.match(s, i)
        if not m:
            raise Skip('token ' + s[i:i + 10])
        i = m.end()
        k = m.lastgroup
        if not k:
            continue
        v = m.group()
        if k == 'word':
            out.append(('w', v.lower()))
        elif k == 'quoted':
            out.append(('q', v[1:-1].replace('""', '"')))
        elif k == 'text':
            out.append(('t', v[1:-1].replace("''", "'")))
        elif k == 'int':
            out.append(('i', int(v)))
        elif k == 'dir':
            out.append(('d', v))
        else:
            out.append(('o', v))
    return out


class Reader:

    def __init__(self, toks):
        self.t = toks
        self.i = 0

    def peek(self, n=0):
        return self.t[self.i + n] if self.i + n < len(self.t) else ('e', '')

    def is_word(self, *ws):
        return all((self.peek(n) == ('w', w) for n, w in enumerate(ws)))

    def take(self, *ws):
        if self.is_word(*ws):
            self.i += len(ws)
            return True
        return False

    def want(self, *ws):
        if not self.take(*ws):
            raise Skip('want %s at %s' % (ws, self.t[self.i:self.i + 5]))

    def is_sign(self, sign):
        return self.peek() == ('o', sign)

    def sign(self, sign):
        if self.is_sign(sign):
            self.i += 1
            return True
        return False

    def want_sign(self, sign):
        if not self.sign(sign):
            raise Skip('want %s at %s' % (sign, self.t[self.i:self.i + 5]))

    def name(self):
        k, v = self.peek()
        if k not in 'wq':
            raise Skip('name at %s' % (self.t[self.i:self.i + 5],))
        self.i += 1
        return v

    def table_name(self):
        n = self.name()
        if n == 'public' and self.sign('.'):
            n = self.name()
        return n

    def names(self):
        self.want_sign('(')
        r = [self.name()]
        while self.sign(','):
            r.append(self.name())
        self.want_sign(')')
        return r


def expr(reader):
    return disjunction(reader)


def disjunction(reader):
    a = conjunction(reader)
    while reader.take('or'):
        a = ('bin', a, 'Or', conjunction(reader))
    return a


def conjunction(reader):
    a = negation(reader)
    while reader.take('and'):
        a = ('bin', a, 'And', negation(reader))
    return a


def negation(reader):
    if reader.take('not'):
        return ('un', 'Not', negation(reader))
    return test(reader)


def test(reader):
    a = comparison(reader)
    while reader.take('is'):
        n = reader.take('not')
        if reader.take('null'):
            a = ('un', 'IsNotNull' if n else 'IsNull', a)
        else:
            reader.want('distinct', 'from')
            b = comparison(reader)
            a = ('bin', a, 'IsNotDistinct' if n else 'IsDistinct', b)
    return a


COMPARISONS = {'=': 'Equal', '<>': 'Unequal', '!=': 'Unequal', '<': 'Less', '<=': 'AtMost', '>': 'Greater', '>=': 'AtLeast'}
def comparison(reader):
    a = addition(reader)
    k, v = reader.peek()
    if k == 'o' and v in COMPARISONS:
        reader.i += 1
        b = addition(reader)
        a = ('bin', a, '(Compare comparisons.%s)' % COMPARISONS[v], b)
    return a


def addition(reader):
    a = product(reader)
    while reader.is_sign('+') or reader.is_sign('-'):
        v = reader.peek()[1]
        reader.i += 1
        a = ('bin', a, 'Add' if v == '+' else 'Subtract', product(reader))
    return a


def product(reader):
    a = signed(reader)
    while reader.sign('*'):
        a = ('bin', a, 'Multiply', signed(reader))
    return a


def signed(reader):
    if reader.sign('-'):
        return ('un', 'Negate', signed(reader))
    return atom(reader)


def atom(reader):
    k, v = reader.peek()
    if reader.sign('('):
        a = expr(reader)
        reader.want_sign(')')
        return a
    if k == 'i':
        reader.i += 1
        return ('const', ('int', v))
    if k == 't':
        reader.i += 1
        return ('const', ('text', v))
    if reader.take('null'):
        return ('const', None)
    if reader.take('true'):
        return ('const', True)
    if reader.take('false'):
        return ('const', False)
    if reader.take('tg_op'):
        return ('op',)
    if reader.is_word('old') and reader.peek(1) == ('o', '.'):
        reader.i += 2
        return ('old', reader.name())
    if reader.is_word('new') and reader.peek(1) == ('o', '.'):
        reader.i += 2
        return ('new', reader.name())
    n = reader.name()
    if reader.sign('.'):
        m = reader.name()
        if n == 'public' and reader.sign('.'):
            m = reader.name()
        return ('column_number', m)
    return ('column_number', n)


def given(reader):
    if reader.take('default'):
        return ('default',)
    return ('value', expr(reader))


def insert(reader):
    reader.want('into')
    t = reader.table_name()
    cols = None
    if reader.is_sign('('):
        cols = reader.names()
    if reader.take('values'):
        rows = []
        while True:
            reader.want_sign('(')
            r = [given(reader)]
            while reader.sign(','):
                r.append(given(reader))
            reader.want_sign(')')
            rows.append(r)
            if not reader.sign(','):
                break
        return ('insert', t, cols, ('values', rows))
    reader.want('select')
    vs = [expr(reader)]
    while reader.sign(','):
        vs.append(expr(reader))
    reader.want('from')
    f = reader.table_name()
    c = expr(reader) if reader.take('where') else None
    return ('insert', t, cols, ('query', vs, f, c))


def update(reader):
    reader.take('only')
    t = reader.table_name()
    reader.want('set')
    assignments = []
    while True:
        n = reader.name()
        reader.want_sign('=')
        assignments.append((n, given(reader)))
        if not reader.sign(','):
            break
    return ('update', t, assignments, expr(reader) if reader.take('where') else None)


def delete(reader):
    reader.want('from')
    reader.take('only')
    t = reader.table_name()
    return ('delete', t, expr(reader) if reader.take('where') else None)


def setcon(reader):
    reader.want('constraints')
    if reader.take('all'):
        ns = None
    else:
        ns = [reader.table_name()]
        while reader.sign(','):
            ns.append(reader.table_name())
    if reader.take('deferred'):
        d = True
    else:
        reader.want('immediate')
        d = False
    return ('setcon', ns, d)


def isolation(reader):
    level = 'ReadCommitted'
    if reader.take('isolation', 'level'):
        if reader.take('repeatable', 'read'):
            level = 'RepeatableRead'
        elif reader.take('read', 'committed') or reader.take('read', 'uncommitted'):
            pass
        else:
            raise Skip('isolation')
    return level


def statement(reader):
    if reader.take('insert'):
        return insert(reader)
    if reader.take('update'):
        return update(reader)
    if reader.take('delete'):
        return delete(reader)
    if reader.take('set'):
        return setcon(reader)
    if reader.take('select'):
        if reader.sign('*'):
            cols = None
        else:
            cols = []
            while True:
                e = expr(reader)
                if e[0] != 'column_number':
                    raise Skip('select')
                cols.append(e[1])
                if not reader.sign(','):
                    break
        reader.want('from')
        reader.take('only')
        t = reader.table_name()
        c = expr(reader) if reader.take('where') else None
        lock = None
        if reader.take('for'):
            if reader.take('key', 'share'):
                lock = 'KeyShare'
            elif reader.take('share'):
                lock = 'Share'
            elif reader.take('no', 'key', 'update'):
                lock = 'NoKeyUpdate'
            else:
                reader.want('update')
                lock = 'Update'
        return ('select', cols, t, c, lock)
    if reader.take('begin'):
        reader.take('work') or reader.take('transaction')
        return ('begin', isolation(reader))
    if reader.take('start'):
        reader.want('transaction')
        return ('start', isolation(reader))
    if reader.take('commit') or reader.take('end'):
        reader.take('work') or reader.take('transaction')
        return ('commit',)
    if reader.take('rollback') or reader.take('abort'):
        reader.take('work') or reader.take('transaction')
        if reader.take('to'):
            reader.take('savepoint')
            return ('rollback_to', reader.name())
        return ('rollback',)
    if reader.take('savepoint'):
        return ('savepoint', reader.name())
    if reader.take('release'):
        reader.take('savepoint')
        return ('release', reader.name())
    raise Skip('statement %s' % (reader.t[reader.i:reader.i + 4],))


CONDITIONS = {'others': 'Others', 'unique_violation': 'UniqueViolation', 'foreign_key_violation': 'ForeignKeyViolation', 'not_null_violation': 'NotNullViolation', 'raise_exception': 'RaiseException', 'serialization_failure': 'SerializationFailure', 'deadlock_detected': 'DeadlockDetected'}
def body_statements(reader, ends):
    out = []
    while not any((reader.is_word(*e) for e in ends)):
        out.append(body_statement(reader))
        reader.want_sign(';')
    return out


def body_statement(reader):
    if reader.take('if'):
        c = expr(reader)
        reader.want('then')
        th = body_statements(reader, [('elsif',), ('else',), ('end',)])
        el = []
        other = []
        while reader.take('elsif'):
            c2 = expr(reader)
            reader.want('then')
            el.append((c2, body_statements(reader, [('elsif',), ('else',), ('end',)])))
        if reader.take('else'):
            other = body_statements(reader, [('end',)])
        reader.want('end', 'if')
        return ('if', c, th, el, other)
    if reader.take('raise'):
        reader.want('exception')
        k, v = reader.peek()
        reader.i += 1
        return ('raise', v)
    if reader.take('return'):
        reader.name()
        return ('return',)
    if reader.is_word('begin'):
        return block(reader)
    return statement(reader)


def block(reader):
    reader.want('begin')
    statements = body_statements(reader, [('end',), ('exception',)])
    handlers = []
    if reader.take('exception'):
        while reader.take('when'):
            cs = []
            while True:
                if reader.take('sqlstate'):
                    cs.append(('state', reader.peek()[1]))
                    reader.i += 1
                else:
                    cs.append(CONDITIONS[reader.name()])
                if not reader.take('or'):
                    break
            reader.want('then')
            handlers.append((cs, body_statements(reader, [('when',), ('end',)])))
    reader.want('end')
    return ('block', statements, handlers)
