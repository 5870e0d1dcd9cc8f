"""Writes programs as data of aq_run: names become numbers."""
import re

from grammar import Skip
from setup import NATIVES
from answers_text import unquoted


def text(s):
    return 'codes "%s"' % s.replace('\\', '\\\\').replace('"', '\\"')


def listed(xs):
    return '(' + ''.join((x + ' ∷ ' for x in xs)) + '[])' if xs else '[]'


def option(x):
    return 'None' if x is None else '(Some %s)' % in_parentheses(x)


def in_parentheses(x):
    return x if re.fullmatch('[\\w.]+', x) or (x.startswith('(') and balanced(x)) else '(%s)' % x


def balanced(x):
    d = 0
    for i, c in enumerate(x):
        if c == '(':
            d += 1
        if c == ')':
            d -= 1
        if d == 0 and i < len(x) - 1:
            return False
    return True


def value(v):
    if v is None:
        return 'values.Null'
    if v is True or v is False:
        return '(values.Bool %s)' % str(v).lower()
    if v[0] == 'int':
        return '(values.Int (pos %d))' % v[1] if v[1] >= 0 else '(values.Int (negsuc %d))' % (-v[1] - 1)
    return '(values.Text (%s))' % text(v[1])


class Binder:

    def __init__(self, setup, changed=None, old=None, new=None):
        self.setup = setup
        self.changed = changed
        self.old = old
        self.new = new

    def term(self, e, t):
        k = e[0]
        if k == 'const':
            return '(Constant %s)' % value(e[1])
        if k == 'column_number':
            if t is None:
                raise Skip('column')
            return '(Column %d)' % self.setup.column_number(t, e[1])
        if k == 'old':
            return '(Old %d)' % self.setup.column_number(self.changed, e[1])
        if k == 'new':
            return '(New %d)' % self.setup.column_number(self.changed, e[1])
        if k == 'op':
            return 'Operation'
        if k == 'un':
            return '(Unary %s %s)' % (e[1], self.term(e[2], t))
        return '(Binary %s %s %s)' % (self.term(e[1], t), e[2], self.term(e[3], t))

    def given(self, g, t):
        return 'Its_default' if g[0] == 'default' else '(Value_of %s)' % self.term(g[1], t)

    def change(self, s):
        k = s[0]
        t = self.setup.table_number(s[1])
        if k == 'insert':
            cols = None if s[2] is None else listed([str(self.setup.column_number(t, c)) for c in s[2]])
            if s[3][0] == 'values':
                src = 'Values %s' % listed([listed([self.given(g, None) for g in r]) for r in s[3][1]])
            else:
                _, vs, f, c = s[3]
                if self.old == f and f:
                    fr, ft = ('tables.OldTable', self.changed)
                elif self.new == f and f:
                    fr, ft = ('tables.NewTable', self.changed)
                else:
                    ft = self.setup.table_number(f)
                    fr = '(tables.Table %d)' % ft
                src = 'Query %s %s %s' % (listed([self.term(v, ft) for v in vs]), fr, option(None if c is None else self.term(c, ft)))
            return '(Inserts (record { table = %d; columns = %s; source = %s }))' % (t, option(cols), src)
        if k == 'update':
            return '(Updates (record { table = %d; assignments = %s; condition = %s }))' % (t, listed(['record { column = %d; value = %s }' % (self.setup.column_number(t, c), self.given(g, t)) for c, g in s[2]]), option(None if s[3] is None else self.term(s[3], t)))
        return '(Deletes (record { table = %d; condition = %s }))' % (t, option(None if s[2] is None else self.term(s[2], t)))

    def code(self, statements):
        return '(joined %s)' % listed([self.one(s) for s in statements]) if statements else '[]'

    def one(self, s):
        k = s[0]
        if k == 'if':
            return '(choice_code %s %s (choices_code %s %s))' % (self.term(s[1], None), self.code(s[2]), listed(['(%s, %s)' % (self.term(c, None), self.code(b)) for c, b in s[3]]), self.code(s[4]))
        if k == 'raise':
            return '(Raises (%s) ∷ [])' % text(s[1])
        if k == 'return':
            return '(Returns ∷ [])'
        if k == 'block':
            return '(block_code %s %s)' % (self.code(s[1]), listed(['(%s, %s)' % (listed(['conditions.%s' % c if isinstance(c, str) else '(conditions.SqlState (record { 0 = %s }))' % text(c[1]) for c in cs]), self.code(b)) for cs, b in s[2]]))
        if k == 'setcon':
            return '(Sets (record { constraints = %s; mode = %s }) ∷ [])' % ('constrained.All' if s[1] is None else 'constrained.Named %s' % listed([text(n) for n in s[1]]), 'modes.Deferred' if s[2] else 'modes.Immediate')
        return '(Changes %s ∷ [])' % self.change(s)

    def refused(self, form, code, t):
        return '(Refused %s (refusal (%s) (%s)))' % (form, text(code), text(t))

    def statement(self, s):
        k = s[0]
        names = [t['name'] for t in self.setup.tables]
        if k in ('insert', 'update', 'delete', 'select'):
            tn = s[2] if k == 'select' else s[1]
            if tn not in names:
                return self.refused('On_rows', '42P01', 'relation "%s" does not exist' % tn)
        if k in ('insert', 'update', 'delete'):
            r = '(Changes_rows %s)' % self.change(s)
        elif k == 'select':
            t = self.setup.table_number(s[2])
            r = '(Selects (record { columns = %s; table = %d; condition = %s; lock = %s }))' % (option(None if s[1] is None else listed([str(self.setup.column_number(t, c)) for c in s[1]])), t, option(None if s[3] is None else self.term(s[3], t)), option(None if s[4] is None else 'lock_modes.' + s[4]))
        elif k == 'setcon':
            if s[1] is None:
                c = 'All_of_them'
            else:
                c = 'Those_named %s'
                ls = []
                for n in s[1]:
                    ns = [i for i, x in enumerate(self.setup.constraints) if x['name'] == n]
                    if not ns:
                        return self.refused('On_constraints', '42704', 'constraint "%s" does not exist' % n)
                    if s[2] and any((not self.setup.constraints[i]['decl'][0] for i in ns)):
                        return self.refused('On_constraints', '42809', 'constraint "%s" is not deferrable' % n)
                    ls.append(listed([str(i) for i in ns]))
                c = c % listed(ls)
            r = '(Sets_constraints (record { constraints = %s; mode = %s }))' % (c, 'modes.Deferred' if s[2] else 'modes.Immediate')
        elif k == 'begin':
            r = '(Begins isolations.%s)' % s[1]
        elif k == 'start':
            r = '(Starts_transaction isolations.%s)' % s[1]
        elif k == 'commit':
            r = 'Commits'
        elif k == 'rollback':
            r = 'Rolls_back'
        elif k == 'savepoint':
            r = '(Makes_savepoint (%s))' % text(s[1])
        elif k == 'release':
            r = '(Releases_savepoint (%s))' % text(s[1])
        else:
            r = '(Rolls_back_to (%s))' % text(s[1])
        return '(Ready %s)' % r


def binding_faults(output, names):
    r = {}
    for l in output.split('\n'):
        m = re.match('(\\S+?)\\.(\\d+): ERROR (42703|42701|42601|42804|42883) (.*)$', l)
        if m:
            r[names.index(unquoted(m.group(1))), int(m.group(2))] = (m.group(3), m.group(4))
    return r


def program(setup, sessions, faults={}):
    b = Binder(setup)
    lines = []
    lines.append('record {')
    lines.append('  schema = record {')
    lines.append('    catalog = record {')
    lines.append('      tables = %s;' % listed(['record { name = %s; cols = %s; not_null = %s }' % (text(t['name']), listed(['record { name = %s; kind = kinds.%s; default = %s }' % (text(c['name']), c['kind'], value(c['default'])) for c in t['cols']]), listed([str(i) for i, c in enumerate(t['cols']) if c['name'] in t['notnull']])) for t in setup.tables]))
    lines.append('      keys = %s;' % listed(['record { name = %s; table = %d; cols = %s }' % (text(k['name']), k['table'], listed(map(str, k['cols']))) for k in setup.keys]))
    lines.append('      primaries = %s;' % listed(map(str, setup.primaries)))
    lines.append('      fks = %s;' % listed(['record { name = %s; child = %d; child_cols = %s; parent = %d; parent_cols = %s; full = %s; on_delete = actions.%s; on_update = actions.%s; con = %d; set_cols = %s }' % (text(f['name']), f['child'], listed(map(str, f['ccols'])), f['parent'], listed(map(str, f['pcols'])), str(f['full']).lower(), f['od'], f['ou'], f['con'], listed(map(str, f['set']))) for f in setup.fks]))
    lines.append('      constraints = %s;' % listed(['record { name = %s; table = %d; decl = record { deferrable = %s; deferred = %s } }' % (text(c['name']), c['table'], str(c['decl'][0]).lower(), str(c['decl'][1]).lower()) for c in setup.constraints]))
    lines.append('      functions = [];')
    lines.append('      triggers = %s;' % listed(['record { name = %s; table = %d; ops = %s; cols = %s; level = each.%s; condition = None; con = %s; does = %s; old_table = %s; new_table = %s }' % (text(t['name']), t['table'], listed(['ops.' + sign for sign in t['ops']]), listed(map(str, t['cols'])), t['level'], option(None if t['con'] is None else str(t['con'])), t['does'], option(None if t['old'] is None else text(t['old'])), option(None if t['new'] is None else text(t['new']))) for t in setup.triggers]))
    lines.append('    };')

    def bt(t):
        return Binder(setup, t['table'], t['old'], t['new'])
    lines.append('    conditions = %s;' % listed([option(None if t['cond'] is None else bt(t).term(t['cond'], None)) for t in setup.triggers]))
    lines.append('    codes = %s;' % listed(['[]' if t['code'] is None else bt(t).one(t['code']) for t in setup.triggers]))
    used = [n for n in NATIVES if any(('"%s"' % n in t['does'] for t in setup.triggers))]
    lines.append('    rules = %s;' % listed(['(%s, %s)' % (text(n), NATIVES[n]) for n in used]))
    lines.append('  };')
    lines.append('  names = %s;' % listed([text(n) for n, _ in sessions]))
    lines.append('  statements = %s;' % listed([listed([b.refused('On_rows', *faults[i, j + 1]) if (i, j + 1) in faults else b.statement(s) for j, s in enumerate(statements)]) for i, (_, statements) in enumerate(sessions)]))
    lines.append('}')
    return '\n    '.join(lines)
