# Appends the driver's tests to a copy of specs/Cases.antt, and brings in the names that they use.
import sys

cases, questions, tests = sys.argv[1:4]
text = open(cases).read()
first = 'use Rattle.model.specs.Types.{Policy,'
types = ('ThreadState, Ready, Exited, OnCore, Blocked, Lane, IdleLane, SwitchLane, RunLane, '
         'EventKind, Spawned, Dispatched, Departed, Woken, Reprioritised')
asked = ('thread_at, next_tid, runner, running_on, thread_on, find_from, core_of, or_empty, timeline_of, any_thread, has_live, '
         'has_runnable, is_deadlocked, passed, response_of, turnaround_of, mean, Figures, figures')
assert first in text
more = ('use Rattle.model.specs.Types.{' + types + '}\n'
        'use Rattle.model.specs.Questions.{' + asked + '}\n'
        'use lib.ListN.{length}\n'
        'use lib.Ieee.{binary64, span, climb, size, odd, units, round, div, of_int, to_bits}\n')
text = text.replace(first, more + first, 1)
open(cases, 'w').write(text + '\n' + open(questions).read() + open(tests).read())
