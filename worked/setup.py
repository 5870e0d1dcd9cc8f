"""What a setup makes: tables, keys, constraints and triggers under their numbers, and the sessions behind it."""
from grammar import KIND, Reader, Skip, atom, block, delete, expr, insert, statement, tokens, update


class Setup:

    def __init__(self):
        self.tables = []
        self.keys = []
        self.primaries = []
        self.fks = []
        self.constraints = []
        self.triggers = []
        self.functions = {}

    def table_number(self, n):
        for i, t in enumerate(self.tables):
            if t['name'] == n:
                return i
        raise Skip('no table ' + n)

    def column_number(self, t, n):
        for i, c in enumerate(self.tables[t]['cols']):
            if c['name'] == n:
                return i
        raise Skip('no column ' + n)


def timing(reader):
    d = [False, False]
    while True:
        if reader.take('not', 'deferrable'):
            pass
        elif reader.take('deferrable'):
            d[0] = True
        elif reader.take('initially', 'deferred'):
            d = [True, True]
        elif reader.take('initially', 'immediate'):
            pass
        else:
            break
    return tuple(d)


def reference(reader):
    t = reader.table_name()
    cols = reader.names() if reader.is_sign('(') else None
    full = False
    od = 'NoAction'
    ou = 'NoAction'
    listed = None
    while True:
        if reader.take('match'):
            if reader.take('full'):
                full = True
            else:
                reader.want('simple')
        elif reader.take('on'):
            which = reader.name()
            l = None
            if reader.take('cascade'):
                a = 'Cascade'
            elif reader.take('restrict'):
                a = 'Restrict'
            elif reader.take('no', 'action'):
                a = 'NoAction'
            elif reader.take('set', 'null'):
                a = 'SetNull'
                l = reader.names() if reader.is_sign('(') else None
            else:
                reader.want('set', 'default')
                a = 'SetDefault'
                l = reader.names() if reader.is_sign('(') else None
            if which == 'delete':
                od = a
                listed = l
            else:
                ou = a
        else:
            break
    return dict(table=t, cols=cols, full=full, od=od, ou=ou, set=listed, decl=timing(reader))


def constant(reader):
    neg = reader.sign('-')
    e = atom(reader)
    v = e[1]
    if neg:
        v = ('int', -v[1])
    return v


def item_constraint(reader, name, cols, items):
    if reader.take('primary', 'key'):
        items.append(('primary', name, cols or reader.names()))
    elif reader.take('unique'):
        items.append(('unique', name, cols or reader.names()))
    elif cols and reader.take('references'):
        items.append(('fk', name, cols, reference(reader)))
    elif not cols and reader.take('foreign', 'key'):
        c = reader.names()
        reader.want('references')
        items.append(('fk', name, c, reference(reader)))
    else:
        raise Skip('constraint')


def create_table(reader, setup):
    n = reader.table_name()
    reader.want_sign('(')
    cols = []
    items = []
    notnull = set()
    while True:
        if reader.is_word('primary', 'key') or reader.is_word('foreign', 'key') or reader.is_word('unique') or reader.is_word('constraint'):
            cn = reader.name() if reader.take('constraint') else None
            item_constraint(reader, cn, None, items)
        else:
            c = reader.name()
            k = KIND[reader.name()]
            column_number = dict(name=c, kind=k, default=None)
            cols.append(column_number)
            while not (reader.is_sign(',') or reader.is_sign(')')):
                if reader.take('not', 'null'):
                    notnull.add(c)
                elif reader.take('default'):
                    column_number['default'] = constant(reader)
                else:
                    cn = reader.name() if reader.take('constraint') else None
                    item_constraint(reader, cn, [c], items)
        if not reader.sign(','):
            break
    reader.want_sign(')')
    setup.tables.append(dict(name=n, cols=cols, notnull=notnull))
    add(setup, n, items)


def free(setup, t, base):
    used = [c['name'] for c in setup.constraints if c['table'] == t]
    if base not in used:
        return base
    i = 1
    while base + str(i) in used:
        i += 1
    return base + str(i)


def add(setup, n, items):
    t = setup.table_number(n)
    later = []
    made = []
    for it in items:
        kind = it[0]
        base = {'primary': n + '_pkey', 'unique': n + '_' + '_'.join(it[2]) + '_key', 'fk': n + '_' + '_'.join(it[2]) + '_fkey'}[kind]
        nm = it[1] or free(setup, t, base)
        con = len(setup.constraints)
        setup.constraints.append(dict(name=nm, table=t, decl=it[3]['decl'] if kind == 'fk' else (False, False)))
        if kind == 'fk':
            later.append((it, nm, con))
        else:
            cs = [setup.column_number(t, c) for c in it[2]]
            if kind == 'primary':
                setup.primaries.append(len(setup.keys))
                setup.tables[t]['notnull'] |= set(it[2])
            setup.keys.append(dict(name=nm, table=t, cols=cs))
    for it, nm, con in later:
        r = it[3]
        reader = setup.table_number(r['table'])
        cs = [setup.column_number(t, c) for c in it[2]]
        if r['cols']:
            pc = [setup.column_number(reader, c) for c in r['cols']]
        else:
            pc = [setup.keys[k]['cols'] for k in setup.primaries if setup.keys[k]['table'] == reader][0]
        f = len(setup.fks)
        sc = []
        for c in r['set'] or it[2]:
            if setup.column_number(t, c) not in sc:
                sc.append(setup.column_number(t, c))
        setup.fks.append(dict(name=nm, child=t, ccols=cs, parent=reader, pcols=pc, full=r['full'], od=r['od'], ou=r['ou'], con=con, set=sc))
        a = 'RI_ConstraintTrigger_a_%010d' % (f + 1)
        c = 'RI_ConstraintTrigger_c_%010d' % (f + 1)

        def trig(name, table, ops, cn, does):
            return dict(name=name, table=table, ops=ops, cols=[], level='Row', cond=None, con=cn, does=does, old=None, new=None, code=None)
        setup.triggers.append(trig(a, reader, ['Delete'], con if r['od'] == 'NoAction' else None, 'Parent %d' % f))
        setup.triggers.append(trig(a, reader, ['Update'], con if r['ou'] == 'NoAction' else None, 'Parent %d' % f))
        setup.triggers.append(trig(c, t, ['Insert', 'Update'], con, 'Check %d' % f))


NATIVES = {'native_ordered': 'AtMost 0 1', 'native_quantity': 'Between 2 (pos 1) (pos 1000)', 'native_append': 'Both (Same 0) (Rises 1)'}
def create_trigger(reader, setup, constraint):
    name = reader.name()
    reader.want('after')
    ops = []
    cols = []
    while True:
        if reader.take('insert'):
            ops.append('Insert')
        elif reader.take('delete'):
            ops.append('Delete')
        else:
            reader.want('update')
            ops.append('Update')
            if reader.take('of'):
                cols.append(reader.name())
                while reader.sign(','):
                    cols.append(reader.name())
        if not reader.take('or'):
            break
    reader.want('on')
    t = setup.table_number(reader.table_name())
    decl = timing(reader) if constraint else (False, False)
    old = new = None
    if reader.take('referencing'):
        while reader.is_word('old') or reader.is_word('new'):
            w = reader.name()
            reader.want('table')
            reader.take('as')
            if w == 'old':
                old = reader.name()
            else:
                new = reader.name()
    level = 'Statement'
    if reader.take('for'):
        reader.take('each')
        level = 'Row' if reader.name() == 'row' else 'Statement'
    cond = None
    if reader.take('when'):
        reader.want_sign('(')
        cond = expr(reader)
        reader.want_sign(')')
    reader.want('execute')
    reader.name()
    f = reader.table_name()
    reader.want_sign('(')
    reader.want_sign(')')
    con = None
    if constraint:
        con = len(setup.constraints)
        setup.constraints.append(dict(name=name, table=t, decl=decl))
    does = 'Body (record { statements = []; handlers = [] })'
    code = None
    if f in NATIVES and f not in setup.functions:
        does = 'Native (codes "%s")' % f
    else:
        code = setup.functions[f]
    setup.triggers.append(dict(name=name, table=t, ops=ops, cols=[setup.column_number(t, c) for c in cols], level=level, cond=cond, con=con, does=does, old=old, new=new, code=code))


def parse_script(script):
    reader = Reader(tokens(script))
    setup = Setup()
    sessions = []
    items = None
    if reader.peek() == ('d', '\\setup'):
        reader.i += 1
        while reader.peek()[0] not in 'de':
            if reader.take('create', 'table'):
                create_table(reader, setup)
            elif reader.take('alter', 'table'):
                reader.take('only')
                n = reader.table_name()
                reader.want('add')
                cn = reader.name() if reader.take('constraint') else None
                items = []
                item_constraint(reader, cn, None, items)
                add(setup, n, items)
            elif reader.take('create', 'function'):
                f = reader.table_name()
                reader.want_sign('(')
                reader.want_sign(')')
                reader.want('returns', 'trigger')
                if reader.take('language', 'plpgsql'):
                    reader.want('as')
                else:
                    reader.want('as')
                if not reader.peek()[1] == '$$':
                    raise Skip('function')
                reader.i += 1
                b = block(reader)
                reader.sign(';')
                if not reader.peek()[1] == '$$':
                    raise Skip('function end %s' % (reader.t[reader.i:reader.i + 4],))
                reader.i += 1
                reader.take('language', 'plpgsql')
                setup.functions[f] = b
            elif reader.take('create', 'constraint', 'trigger'):
                create_trigger(reader, setup, True)
            elif reader.take('create', 'trigger'):
                create_trigger(reader, setup, False)
            else:
                raise Skip('setup %s' % (reader.t[reader.i:reader.i + 4],))
            reader.want_sign(';')
    while reader.peek() == ('d', '\\session'):
        reader.i += 1
        n = reader.name()
        statements = []
        while reader.peek()[0] not in 'de':
            statements.append(statement(reader))
            reader.want_sign(';')
        sessions.append((n, statements))
    items = None
    if reader.peek() == ('d', '\\schedule'):
        reader.i += 1
        items = []
        while reader.peek()[0] != 'e':
            n = reader.name()
            c = 1
            if reader.sign('*'):
                c = reader.peek()[1]
                reader.i += 1
            items.append((n, c))
    setup.items = items
    return (setup, sessions)
