"""Writes scripts with known answers as lemmas of aq_run, each closed by computation.

    lemmas.py FILE HEADING < CASES

CASES is a JSON list of objects with id (the lemmas' name), name, script and output, and why (lines of comment) where there is a reason to tell.
The output is the program's text, or the one line with which a schedule is refused. A script with a form that this reader doesn't know is
passed over, and told on standard error.
"""
import json
import sys

from answers import refusal, schedule, wanted
from data import binding_faults, listed, program, text
from grammar import Skip
from setup import parse_script


# what the lemmas unfold
UNFOLDED = "run_from step effect effects_of plan_of error_effects row_step insert_step queued_by queued_by_statement child_check no_action_check restrict_check action_targets new_rows targets"

IMPORTS = """use Rattle.std.proofs.Common.{◌≡◌, ℕ, true, false, List, [], ◌∷◌, ◌++◌, Some, None, refl, map}
use Rattle.std.specs.Prelude.{codes, pos, negsuc, replicate}
use Rattle.std.specs.Fmt.{digits}
use Rattle.aq_base.specs.Terms.Term.{Constant, Column, Old, New, Operation, Unary, Binary}
use Rattle.aq_base.specs.Statements.Given.{Value_of, Its_default}
use Rattle.aq_base.specs.Statements.Source.{Values, Query}
use Rattle.aq_base.specs.Statements.Change_of_rows.{Inserts, Updates, Deletes}
use Rattle.aq_base.specs.Statements.Statement.{Changes_rows, Selects, Sets_constraints, Begins, Starts_transaction, Commits, Rolls_back, Makes_savepoint, Releases_savepoint, Rolls_back_to}
use Rattle.aq_base.specs.Codes.{joined, choice_code, choices_code, block_code}
use Rattle.aq_base.specs.Codes.Instruction.{Raises, Returns, Changes, Sets}
use Rattle.aq_base.specs.Rules.Rule.{Between, AtMost, Both, Same, Rises}
use Rattle.aq_base.specs.declared.body.Condition.TheVariants as conditions
use Rattle.aq_base.specs.declared.value.Value.TheVariants as values
use Rattle.aq_base.specs.declared.script.Kind.TheVariants as kinds
use Rattle.aq_base.specs.declared.data.LockMode.TheVariants as lock_modes
use Rattle.aq_base.specs.declared.expr.UnaryOperator.TheVariants.{Negate, Not, IsNull, IsNotNull}
use Rattle.aq_base.specs.declared.expr.BinaryOperator.TheVariants.{Multiply, Add, Subtract, Compare, IsDistinct, IsNotDistinct, And, Or}
use Rattle.aq_base.specs.declared.expr.Comparison.TheVariants as comparisons
use Rattle.aq_base.specs.declared.bound_data.BoundFrom.TheVariants as tables
use Rattle.aq_base.specs.declared.bound_statement.BoundConstraints.TheVariants.{All as All_of_them, Named as Those_named}
use Rattle.aq_base.specs.declared.modes.Constraints.TheVariants as constrained
use Rattle.aq_base.specs.declared.modes.ConstraintMode.TheVariants as modes
use Rattle.aq_base.specs.declared.statement.Isolation.TheVariants as isolations
use Rattle.aq_base.specs.declared.constraint.Action.TheVariants as actions
use Rattle.aq_base.specs.declared.catalog.Op.TheVariants as ops
use Rattle.aq_base.specs.declared.catalog.Does.TheVariants.{Check, Parent, Body, Native}
use Rattle.aq_base.specs.declared.trigger.Each.TheVariants as each
use Rattle.aq_base.specs.declared.reply.ReplyLine.TheVariants as replies
use Rattle.aq_base.specs.declared.trace.TraceLine.TheVariants as traces
use Rattle.aq_base.specs.declared.trace.Ending.TheVariants as endings
use Rattle.aq_base.specs.declared.trace.ModeOf.TheVariants as mode_of
use Rattle.aq_outcomes.specs.Faults.{refusal}
use Rattle.aq_outcomes.specs.Rows.{row_step, insert_step}
use Rattle.aq_outcomes.specs.Queued.{queued_by, queued_by_statement}
use Rattle.aq_outcomes.specs.References.{child_check, no_action_check, restrict_check, action_targets}
use Rattle.aq_outcomes.specs.Sources.{new_rows, targets}
use Rattle.aq_run.specs.Programs.{Program}
use Rattle.aq_run.specs.Programs.Prepared.{Ready, Refused}
use Rattle.aq_run.specs.Programs.Form.{On_rows, On_constraints}
use Rattle.aq_run.specs.States.{State}
use Rattle.aq_run.specs.Effects.{effect}
use Rattle.aq_run.specs.Errors.{error_effects}
use Rattle.aq_run.specs.Steps.{plan_of, effects_of, step}
use Rattle.aq_run.specs.Runs.{run_from, run, have_all_ended, schedule_refusal}
use Rattle.aq_run.specs.Runs.Refusal.{Unknown, Disabled, Unfinished}
use Rattle.aq_run.proofs.Tables.{final_tables}
"""


def emit_refused(name, case):
    setup, sessions = parse_script(case['script'])
    lines = ['unfoldable pub %s : Program' % name, '%s =\n    %s\n' % (name, program(setup, sessions))]
    lines.append('%s-refused : schedule_refusal %s %s ≡ Some (%s)' % (name, name, listed(['record { name = %s; count = %d }' % (text(n), c) for n, c in setup.items]), refusal(case['output'].strip())))
    lines.append('unfolding %s %s' % (name, UNFOLDED))
    lines.append('%s-refused = refl\n' % name)
    return '\n'.join(lines)


def emit(name, case):
    if case['output'].startswith('aqueue: '):
        return emit_refused(name, case)
    setup, sessions = parse_script(case['script'])
    names = [n for n, _ in sessions]
    replies, tables, lines_told, items = wanted(case['output'], names)
    n = sum((c for _, c in items))
    lines = []
    for c in case.get('why', []):
        lines.append('-- ' + c)
    for c in case['script'].strip().split('\n'):
        lines.append(('-- ' + c.expandtabs(1)).rstrip())
    lines.append('unfoldable pub %s : Program' % name)
    lines.append('%s =\n    %s\n' % (name, program(setup, sessions, binding_faults(case['output'], names))))
    lines.append('%s-end : State' % name)
    lines.append('unfolding %s %s' % (name, UNFOLDED))
    lines.append('%s-end = run %s (%s)\n' % (name, name, schedule(items)))
    lines.append('%s-ended : have_all_ended %s-end ≡ true' % (name, name))
    lines.append('unfolding %s-end %s' % (name, UNFOLDED))
    lines.append('%s-ended = refl\n' % name)
    if n:
        short = list(items)
        s, c = short[-1]
        short = short[:-1] + ([(s, c - 1)] if c > 1 else [])
        lines.append('%s-not_before : have_all_ended (run %s (%s)) ≡ false' % (name, name, schedule(short)))
        lines.append('unfolding %s %s' % (name, UNFOLDED))
        lines.append('%s-not_before = refl\n' % name)
    lines.append('%s-replies : %s-end.world.replies ≡ %s' % (name, name, listed(replies) if replies else '[]'))
    lines.append('unfolding %s-end %s digits' % (name, UNFOLDED))
    lines.append('%s-replies = refl\n' % name)
    lines.append('%s-tables : final_tables %s %s-end ≡ %s' % (name, name, name, listed([listed(t) for t in tables])))
    lines.append('unfolding %s %s-end %s' % (name, name, UNFOLDED))
    lines.append('%s-tables = refl\n' % name)
    if lines_told:
        lines.append('%s-trace : %s-end.world.trace ≡ %s' % (name, name, listed(lines_told)))
        lines.append('unfolding %s-end %s' % (name, UNFOLDED))
        lines.append('%s-trace = refl\n' % name)
    return '\n'.join(lines)


def main():
    parts = []
    for case in json.load(sys.stdin):
        try:
            parts.append(emit(case["id"], case))
        except (Skip, KeyError, IndexError, ValueError, AssertionError, TypeError) as problem:
            print("passed over:", case["name"], problem, file=sys.stderr)
    with open(sys.argv[1], "w", encoding="utf-8") as out:
        out.write("-- " + sys.argv[2] + "\n" + IMPORTS + "\n" + "\n".join(parts))
    print(len(parts), "scripts")


if __name__ == "__main__":
    main()
