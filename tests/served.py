"""Runs of the program on steps that have names, with all that each writes and says, by name, for tests/run: what is wanted was
worked out by hand. In some the program reads and writes a few bytes at a time, or fails to:
tests/narrow.c intercepts the C library then. In all texts here `..` stands for the zeros with which an id begins.

The lists and sizes of drawn lives, and next versions and attempts in them, are those that tests/reference.py and tests/followed.py work out.
"""
import itertools
import json
import random
import re
import tempfile

import drawn
import followed
import reference
import refusing

ZEROS = "00000000-0000-0000-0000-000000000"
# steps by name; `2:J` is the step J at coordinator 2
STEPS = {
    "J": '{"at":1,"tell":{"job":{"id":"..001","version":1,"writer":1,"withdrawn":false,"wait":500,"preempt":800}}}',
    "J600": '{"at":1,"tell":{"job":{"id":"..001","version":1,"writer":1,"withdrawn":false,"wait":600,"preempt":800}}}',
    "JTwice":
        '{"at":1,"tell":{"job":{"id":"..002","id":"..001","version":1,"writer":1,"withdrawn":false,"wait":[],"wait":500,"preempt":800,"m'
        'ore":{}}}}',
    "A": '{"at":1,"tell":{"machine":{"id":"..00a","incarnation":1,"version":1,"writer":1,"up":true,"slots":2,"nic":1000}}}',
    "B": '{"at":1,"tell":{"machine":{"id":"..00b","incarnation":1,"version":1,"writer":1,"up":true,"slots":2,"nic":1000}}}',
    "T": '{"at":1,"tell":{"spec":{"id":"..011","version":1,"writer":1,"withdrawn":false,"job":"..001","request":100}}}',
    "T0": '{"at":1,"tell":{"spec":{"id":"..011","version":1,"writer":1,"withdrawn":false,"job":"..001","request":0}}}',
    "TDone": '{"at":1,"tell":{"progress":{"id":"..011","attempt":0,"phase":"done"}}}',
    "TAgain": '{"at":1,"tell":{"progress":{"id":"..011","attempt":1,"phase":"pending"}}}',
    "OnA": '{"at":1,"tell":{"propose":{"id":"..011","attempt":0,"coordinator":1,"machine":"..00a","incarnation":1}}}',
    "OnB": '{"at":1,"tell":{"propose":{"id":"..011","attempt":0,"coordinator":2,"machine":"..00b","incarnation":1}}}',
    "Used950": '{"at":1,"tell":{"report":{"id":"..00a","incarnation":1,"number":3,"used":950}}}',
    "Used0": '{"at":1,"tell":{"report":{"id":"..00a","incarnation":1,"number":2,"used":0}}}',
    "Used40": '{"at":1,"tell":{"report":{"id":"..00a","incarnation":1,"number":1,"used":40}}}',
    "Used1001": '{"at":1,"tell":{"report":{"id":"..00a","incarnation":1,"number":4,"used":1001}}}',
    "JGone": '{"at":1,"tell":{"job":{"id":"..001","version":3,"writer":2,"withdrawn":true,"wait":500,"preempt":800}}}',
    "ADown": '{"at":1,"tell":{"machine":{"id":"..00a","incarnation":1,"version":4,"writer":2,"up":false,"slots":3,"nic":900}}}',
    "TGone": '{"at":1,"tell":{"spec":{"id":"..011","version":2,"writer":3,"withdrawn":true,"job":"..001","request":100}}}',
    "Lost": '{"at":1,"tell":{"report":{"id":"..00a","incarnation":2,"number":1,"used":0}}}',
    "NoSlots": '{"at":1,"tell":{"machine":{"id":"..00a","incarnation":1,"version":1,"writer":1,"up":true,"slots":0,"nic":1000001}}}',
    "MostWait": '{"at":1,"tell":{"job":{"id":"..001","version":1,"writer":64,"withdrawn":false,"wait":1000000000,"preempt":0}}}',
    "MoreWait": '{"at":1,"tell":{"job":{"id":"..001","version":1,"writer":1,"withdrawn":false,"wait":1000000001,"preempt":0}}}',
    "Elsewhere": '{"at":0,"tell":{"job":{"id":"..001","version":1,"writer":65,"withdrawn":false,"wait":0,"preempt":0}}}',
    "J700": '{"at":1,"tell":{"job":{"id":"..001","version":1,"writer":1,"withdrawn":false,"wait":700,"preempt":800}}}',
    "JWait100": '{"at":1,"tell":{"job":{"id":"..001","version":1,"writer":1,"withdrawn":false,"wait":100,"preempt":800}}}',
    "JPreempt80": '{"at":1,"tell":{"job":{"id":"..001","version":1,"writer":1,"withdrawn":false,"wait":500,"preempt":80}}}',
    "AOneSlot": '{"at":1,"tell":{"machine":{"id":"..00a","incarnation":1,"version":1,"writer":1,"up":true,"slots":1,"nic":1000}}}',
    "T600": '{"at":1,"tell":{"spec":{"id":"..011","version":1,"writer":1,"withdrawn":false,"job":"..001","request":600}}}',
    "U500": '{"at":1,"tell":{"spec":{"id":"..012","version":1,"writer":1,"withdrawn":false,"job":"..001","request":500}}}',
    "U0": '{"at":1,"tell":{"spec":{"id":"..012","version":1,"writer":1,"withdrawn":false,"job":"..001","request":0}}}',
    "JTwo": '{"at":1,"tell":{"job":{"id":"..001","version":2,"writer":1,"withdrawn":false,"wait":600,"preempt":800}}}',
    "Last": '{"at":1,"tell":{"progress":{"id":"..011","attempt":4294967295,"phase":"running"}}}',
    "LastOnB": '{"at":1,"tell":{"propose":{"id":"..011","attempt":4294967295,"coordinator":1,"machine":"..00b","incarnation":1}}}',
    "CutFirst": '{"at":1,"cut":{"name":"p1","from":0,"to":1}}',
    "CutSecond": '{"at":1,"cut":{"name":"p2","from":1,"to":2}}',
    "CutBoth": '{"at":1,"cut":{"name":"p3","from":0,"to":2}}',
    "CutNone": '{"at":1,"cut":{"name":"none","from":3,"to":3}}',
    "CutBackwards": '{"at":1,"cut":{"name":"p","from":4,"to":3}}',
    "CutFour": '{"at":1,"cut":{"name":"p","from":0,"to":4}}',
    "CutLater": '{"at":1,"cut":{"name":"p","from":1,"to":3}}',
    "CutA": '{"at":1,"cut":{"name":"a"}}',
    "CutB": '{"at":1,"cut":{"name":"b"}}',
    "CutC": '{"at":1,"cut":{"name":"c"}}',
    "CutD": '{"at":1,"cut":{"name":"d","from":1,"to":2}}',
    "GetFirst": '{"at":1,"deliver":"p1"}',
    "GetSecond": '{"at":1,"deliver":"p2"}',
    "GetBoth": '{"at":1,"deliver":"p3"}',
    "GetA": '{"at":1,"deliver":"a"}',
    "GetB": '{"at":1,"deliver":"b"}',
    "GetC": '{"at":1,"deliver":"c"}',
    "GetD": '{"at":1,"deliver":"d"}',
    "Trim1": '{"at":1,"trim":1}',
    "Trim2": '{"at":1,"trim":2}',
    "Trim9": '{"at":1,"trim":9}',
    "Round": '{"at":1,"round":true}',
    "RoundOf1": '{"at":1,"round":{"writers":[1]}}',
    "RoundOf2": '{"at":1,"round":{"writers":[2]}}',
    "RoundOfBoth": '{"at":1,"round":{"writers":[2,1]}}',
    "RoundOfNobody": '{"at":1,"round":{"writers":[3,64]}}',
    "RoundOfOneEach": '{"at":1,"round":{"each":1}}',
    "RoundOf2OneEach": '{"at":1,"round":{"each":1,"writers":[2]}}',
    "RoundOfBothOneEach": '{"at":1,"round":{"writers":[1,2],"each":1}}',
    "RoundOfAll": '{"at":1,"round":{}}',
    "RoundOfNone": '{"at":1,"round":{"writers":[]}}',
    "Relieve": '{"at":1,"relieve":true}',
    "ASmall": '{"at":1,"tell":{"machine":{"id":"..00a","incarnation":1,"version":1,"writer":1,"up":true,"slots":2,"nic":99}}}',
    "UBy2": '{"at":1,"tell":{"spec":{"id":"..012","version":1,"writer":2,"withdrawn":false,"job":"..001","request":300}}}',
    "VBy2": '{"at":1,"tell":{"spec":{"id":"..013","version":1,"writer":2,"withdrawn":false,"job":"..002","request":100}}}',
    "JUrgent": '{"at":1,"tell":{"job":{"id":"..002","version":1,"writer":2,"withdrawn":false,"wait":10000,"preempt":20000}}}',
    "TBy2": '{"at":1,"tell":{"spec":{"id":"..011","version":1,"writer":2,"withdrawn":false,"job":"..001","request":100}}}',
    "Strange": '{"at":1}',
}
NOTHING = "c 1 S\np min 1 0\n"
MACHINE = "c 1 S\nc 2 M ..00a\np min 2 1\na 2 1 0 2 0\n"
WAITING = """\
c 1 S
c 2 U ..001
c 3 R 100
c 4 M ..00a
c 5 T ..011
p min 5 5
n 1 -1
n 5 1
a 2 1 0 1 0
a 3 4 0 2 100
a 4 1 0 2 0
a 5 2 0 1 500
a 5 3 0 1 0
"""
WAITING_DEARLY = """\
c 1 S
c 2 U ..001
c 3 R 100
c 4 M ..00a
c 5 T ..011
p min 5 5
n 1 -1
n 5 1
a 2 1 0 1 0
a 3 4 0 2 100
a 4 1 0 2 0
a 5 2 0 1 600
a 5 3 0 1 0
"""
CROWDED_OUT = """\
c 1 S
c 2 U ..001
c 3 R 100
c 4 M ..00a
c 5 T ..011
p min 5 4
n 1 -1
n 5 1
a 2 1 0 1 0
a 4 1 0 2 0
a 5 2 0 1 500
a 5 3 0 1 0
"""
HELD = """\
c 1 S
c 2 U ..001
c 3 M ..00a
c 4 T ..011
p min 4 4
n 1 -1
n 4 1
a 2 1 0 1 0
a 3 1 0 2 0
a 4 2 0 1 800
a 4 3 0 1 0
"""
LOST = """\
c 1 S
c 2 U ..001
c 3 R 100
c 4 T ..011
p min 4 3
n 1 -1
n 4 1
a 2 1 0 1 0
a 4 2 0 1 500
a 4 3 0 1 0
"""
ASKING_NOTHING = """\
c 1 S
c 2 U ..001
c 3 R 0
c 4 M ..00a
c 5 T ..011
p min 5 5
n 1 -1
n 5 1
a 2 1 0 1 0
a 3 4 0 2 40
a 4 1 0 2 0
a 5 2 0 1 500
a 5 3 0 1 0
"""
NOTHING_SPARED = """\
c 1 S
c 2 U ..001
c 3 R 0
c 4 M ..00a
c 5 T ..011
p min 5 4
n 1 -1
n 5 1
a 2 1 0 1 0
a 4 1 0 2 0
a 5 2 0 1 500
a 5 3 0 1 0
"""
PLACED = "s 100\nf 3 4 1\nf 4 1 1\nf 5 3 1\n"
THEORY = "by potentials that certify the schedule: what is sent over an empty arc costs at least its reduced cost more\n"
RUNS_AT_A = """\
task ..011 runs in this schedule: leaving it to wait would cost at least 400 more
this schedule costs 100, and none costs less
on machine ..00a it costs 100, and each schedule that runs it there costs at least 0 more
room for its request of 100 on 1 of 1 machines that are known
""" + THEORY
WAITS = """\
task ..011 waits, which costs 100: running it on the cheapest machine with room would cost exactly 500 more
this schedule costs 100, and none costs less
it stays least while the price of waiting is 600 or less for this task, and as it is for all others
a schedule that runs it on machine ..00a costs 600; tasks that go elsewhere in it: 1
in it task ..011 goes over its request of 600
on machine ..00a it costs 600, and the cheapest schedule that runs it there costs exactly 500 more
room for its request of 600 on 1 of 1 machines that are known
""" + THEORY
SLOT_WANTED = """\
task ..011 waits, which costs 700: running it on the cheapest machine with room would cost exactly 100 more
this schedule costs 1200, and none costs less
it stays least while the price of waiting is 800 or less for this task, and as it is for all others
with 1 more slot on machine ..00a it would run there: the schedule then costs 1100, and none costs less
a schedule that runs it on machine ..00a costs 1300; tasks that go elsewhere in it: 2
in it task ..011 goes over its request of 600
in it task ..012 waits
on machine ..00a it costs 600, and the cheapest schedule that runs it there costs exactly 100 more
room for its request of 600 on 1 of 1 machines that are known
""" + THEORY
BANDWIDTH_WANTED = """\
task ..011 waits: no machine has room for its request of 100
this schedule costs 1000000000, and none costs less
with 50 more bandwidth on machine ..00a it would run there: the schedule then costs 1050, and none costs less
room for its request of 100 on 0 of 1 machines that are known
""" + THEORY
NO_ROOM = """\
task ..011 waits: no machine has room for its request of 100
this schedule costs 500, and none costs less
room for its request of 100 on 0 of 1 machines that are known
""" + THEORY
NOT_LIVE = "task ..011 is not live: "
JOB_LINE, MACHINE_LINE = "job ..001 1 1 false 500 800\n", "machine ..00a 1 1 1 open 2 1000 0 0 1000\n"
HOLDER_LINE, LOST_LINE = "machine ..00a 1 1 1 open 2 1000 1 100 900\n", "machine ..00a 2 - - closed - - 0 0 -\n"
WAITING_LINE, HELD_LINE, OVER_LINE = ("task ..011 0 pending 1 1 ..001 100 %s\n" % state for state in ("waiting", "held ..00a", "over"))
LISTED = JOB_LINE + MACHINE_LINE + WAITING_LINE
# runs at coordinator 1: the words, the steps by name, the status, what is written, and the text for standard error
RUNS = [
    ("graph", "", 0, NOTHING, ""),
    ("graph", "J A T", 0, WAITING, ""),
    ("graph --at 1", "A T J", 0, WAITING, ""),
    ("graph --at=1", "T J A J T A", 0, WAITING, ""),
    ("graph", "JTwice A T", 0, WAITING, ""),
    ("graph", "A T", 0, MACHINE, ""),
    ("graph", "J J600 A T", 0, WAITING_DEARLY, ""),
    ("graph", "J600 J A T", 0, WAITING_DEARLY, ""),
    ("graph", "J A T Used950 Used0", 0, CROWDED_OUT, ""),
    ("graph", "J A T Used0 Used950", 0, CROWDED_OUT, ""),
    ("graph", "J A T OnA", 0, HELD, ""),
    ("graph", "OnA T A J", 0, HELD, ""),
    ("winners", "J A T OnA Relieve", 0, "..011 0 1 ..00a 1 held\n", ""),
    ("winners", "J ASmall T OnA", 0, "..011 0 1 ..00a 1 held\n", ""),
    ("winners", "J ASmall T OnA Relieve", 0, "", ""),
    ("graph", "J A T OnA Lost", 0, LOST, ""),
    ("graph", "Lost J A T OnA", 0, LOST, ""),
    ("graph", "J A T OnA TAgain", 0, WAITING, ""),
    ("graph", "J A T TDone", 0, MACHINE, ""),
    ("graph", "J A T0 Used40", 0, ASKING_NOTHING, ""),
    ("graph", "J A T0 Used40 Used1001", 0, NOTHING_SPARED, ""),
    ("winners", "", 0, "", ""),
    ("winners", "J A T", 0, "", ""),
    ("winners --at 1", "J A T OnA", 0, "..011 0 1 ..00a 1 held\n", ""),
    ("winners", "J A T OnA Lost", 0, "..011 0 1 ..00a 1 free\n", ""),
    ("winners", "J A T OnA TAgain", 0, "", ""),
    ("winners", "J A T UBy2 Round", 0, "..011 0 1 ..00a 1 held\n..012 0 1 ..00a 1 held\n", ""),
    ("winners", "J A T UBy2 RoundOfAll", 0, "..011 0 1 ..00a 1 held\n..012 0 1 ..00a 1 held\n", ""),
    ("winners", "J A T UBy2 RoundOfBoth", 0, "..011 0 1 ..00a 1 held\n..012 0 1 ..00a 1 held\n", ""),
    ("winners", "J A T UBy2 RoundOf1", 0, "..011 0 1 ..00a 1 held\n", ""),
    ("winners", "J A T UBy2 RoundOf2", 0, "..012 0 1 ..00a 1 held\n", ""),
    ("winners", "J A T UBy2 RoundOf2 RoundOf1", 0, "..011 0 1 ..00a 1 held\n..012 0 1 ..00a 1 held\n", ""),
    ("winners", "J A T UBy2 RoundOfNobody", 0, "", ""),
    ("winners", "J A T UBy2 RoundOfOneEach", 0, "..011 0 1 ..00a 1 held\n", ""),
    ("winners", "J A T UBy2 RoundOf2OneEach", 0, "..012 0 1 ..00a 1 held\n", ""),
    ("winners", "J A T UBy2 RoundOfBothOneEach", 0, "..011 0 1 ..00a 1 held\n", ""),
    # of two who tell a version of the spec the greater one wrote it
    ("winners", "J A T TBy2 RoundOf1", 0, "", ""),
    ("winners", "J A TBy2 T RoundOf2", 0, "..011 0 1 ..00a 1 held\n", ""),
    # a task on the only slot is to go for one that is dearer: a preempt is made in a round of the task's writer alone
    ("winners", "JPreempt80 AOneSlot T OnA JUrgent VBy2 RoundOf2", 0, "..011 0 1 ..00a 1 held\n", ""),
    ("winners", "JPreempt80 AOneSlot T OnA JUrgent VBy2 RoundOf1", 0, "", ""),
    ("winners", "JPreempt80 AOneSlot T OnA JUrgent VBy2 RoundOfOneEach", 0, "", ""),
    ("winners", "JPreempt80 AOneSlot T OnA JUrgent VBy2 RoundOf1 RoundOf1", 0, "", ""),
    ("winners", "JPreempt80 AOneSlot T OnA JUrgent VBy2 RoundOf1 RoundOf2", 0, "..013 0 1 ..00a 1 held\n", ""),
    ("winners", "J A T RoundOfNone NoSlots", 3, "", "firmament: refusal 16 at step 4\n"),
    ("winners", "NoSlots RoundOfNone", 3, "", "firmament: refusal 16 at step 2\n"),
    ("winners", "OnA", 0, "..011 0 1 ..00a 1 free\n", ""),
    ("winners", "J A B T OnB", 0, "..011 0 2 ..00b 1 held\n", ""),
    ("winners", "J A B T OnB OnA", 0, "..011 0 1 ..00a 1 held\n", ""),
    ("winners", "J A B T OnA OnB", 0, "..011 0 1 ..00a 1 held\n", ""),
    ("why ..011", "J A T", 0, RUNS_AT_A, ""),
    ("why ..011", "JWait100 A T600", 0, WAITS, ""),
    ("why ..011 --at 1", "JWait100 A T600", 0, WAITS, ""),
    ("why --at=2 ..011", "JWait100 A T600", 3, "", "firmament: refusal 8\n"),
    ("why ..011", "J700 AOneSlot T600 U500", 0, SLOT_WANTED, ""),
    ("why ..011", "J A T Used950", 0, NO_ROOM, ""),
    ("why ..011", "MostWait A T Used950", 0, BANDWIDTH_WANTED, ""),
    ("why ..011", "J A T OnA Lost", 0, NO_ROOM, ""),
    ("why ..011", "J A T OnA", 0, "task ..011 is held by machine ..00a\n", ""),
    ("why ..011", "J A T TDone", 0, NOT_LIVE + "it is done\n", ""),
    ("why ..011", "A T", 0, NOT_LIVE + "its job is not known\n", ""),
    ("why ..011", "A T TDone", 0, NOT_LIVE + "it is done\n", ""),
    ("why ..011", "A T JGone", 0, NOT_LIVE + "its job is withdrawn\n", ""),
    ("why ..011", "A T JGone TDone", 0, NOT_LIVE + "it is done\n", ""),
    ("why ..011", "A T JGone TDone TGone", 0, NOT_LIVE + "it is withdrawn\n", ""),
    ("why ..011", "A T TGone", 0, NOT_LIVE + "it is withdrawn\n", ""),
    ("why ..011", "J A T TGone OnA", 0, NOT_LIVE + "it is withdrawn\n", ""),
    ("why ..011", "J A TDone OnA", 0, "task ..011 is not known\n", ""),
    ("why ..012", "J A T", 0, "task ..012 is not known\n", ""),
    ("why ..011", "J NoSlots A", 3, "", "firmament: refusal 2 at step 2\n"),
    ("why 11", "J A T", 2, "", "error: a task is named by its id, a UUID\n"),
    ("graph", "J NoSlots A", 3, "", "firmament: refusal 2 at step 2\n"),
    ("graph", "MostWait", 0, NOTHING, ""),
    ("winners", "J A T MoreWait", 3, "", "firmament: refusal 2 at step 4\n"),
    ("graph", "J Elsewhere NoSlots", 3, "", "firmament: refusal 8 at step 2\n"),
    ("graph", "J Strange", 3, "", "firmament: refusal 16 at step 2\n"),
    ("graph --at 2", "J A T", 3, "", "firmament: refusal 8\n"),
    ("winners --at 0", "J A T", 3, "", "firmament: refusal 8\n"),
    ("graph --at 255", "NoSlots", 3, "", "firmament: refusal 8\n"),
    ("graph --at 2", "Elsewhere Strange", 3, "", "firmament: refusal 16 at step 2\n"),
    ("graph --at 256", "Strange", 2, "",
     "error: invalid value '256' for '--at <N>': 256 is not in 0..=255\n\nFor more information, try '--help'.\n"),
    ("graph --at -1", "", 2, "",
     "error: unexpected argument '-1' found\n\nUsage: firmament graph [OPTIONS]\n\nFor more information, try '--help'.\n"),
    ("grapf", "", 2, "",
     "error: unrecognized subcommand 'grapf'\n\n  tip: a similar subcommand exists: 'graph'\n\nUsage: firmament <COMMAND>\n\nFor more in"
     "formation, try '--help'.\n"),
    ("list", "", 0, "", ""),
    ("list", "J A T", 0, LISTED, ""),
    ("list --at 1", "T J A J T A", 0, LISTED, ""),
    ("list --at=1", "J A T OnA", 0, JOB_LINE + HOLDER_LINE + HELD_LINE, ""),
    ("list", "J A T OnA Used40", 0, JOB_LINE + HOLDER_LINE + HELD_LINE, ""),
    ("list", "J A T OnA Used950", 0, JOB_LINE + "machine ..00a 1 1 1 open 2 1000 1 950 50\n" + HELD_LINE, ""),
    ("list", "J A T OnA Used1001", 0, JOB_LINE + "machine ..00a 1 1 1 open 2 1000 1 1001 -\n" + HELD_LINE, ""),
    ("list", "J A T0 OnA", 0, JOB_LINE + "machine ..00a 1 1 1 open 2 1000 1 0 1000\ntask ..011 0 pending 1 1 ..001 0 held ..00a\n", ""),
    ("list", "J A T600 U500 OnA", 0,
     JOB_LINE + "machine ..00a 1 1 1 open 2 1000 1 600 400\ntask ..011 0 pending 1 1 ..001 600 held ..00a\n"
     "task ..012 0 pending 1 1 ..001 500 waiting\n", ""),
    ("list", "J A T OnA Lost", 0, JOB_LINE + LOST_LINE + WAITING_LINE, ""),
    ("list", "J A T OnA ADown Used40", 0, JOB_LINE + "machine ..00a 1 4 2 closed 3 900 0 0 -\n" + WAITING_LINE, ""),
    ("list", "J B A", 0, JOB_LINE + MACHINE_LINE + "machine ..00b 1 1 1 open 2 1000 0 0 1000\n", ""),
    ("list", "J A T OnA TAgain", 0, JOB_LINE + MACHINE_LINE + "task ..011 1 pending 1 1 ..001 100 waiting\n", ""),
    ("list", "J A T OnA TDone", 0, JOB_LINE + MACHINE_LINE + "task ..011 0 done 1 1 ..001 100 over\n", ""),
    ("list", "J A T OnA TGone", 0, JOB_LINE + MACHINE_LINE + "task ..011 0 pending 2 3 ..001 100 over\n", ""),
    ("list", "J A T OnA JGone", 0, "job ..001 3 2 true 500 800\n" + MACHINE_LINE + OVER_LINE, ""),
    ("list", "T OnA", 0, OVER_LINE, ""),
    ("list", "TDone", 0, "task ..011 0 done - - - - over\n", ""),
    ("list", "J Last Used950", 0,
     JOB_LINE + "machine ..00a 1 - - closed - - 0 0 -\ntask ..011 4294967295 running - - - - over\n", ""),
    ("list", "OnA", 0, "", ""),
    ("list --at 2", "J A T", 3, "", "firmament: refusal 8\n"),
    ("list", "J A NoSlots", 3, "", "firmament: refusal 2 at step 3\n"),
    ("size", "", 2, "",
     "error: unrecognized subcommand 'size'\n\nUsage: firmament <COMMAND>\n\nFor more information, try '--help'.\n"),
    ("list jobs", "", 2, "",
     "error: unexpected argument 'jobs' found\n\nUsage: firmament list [OPTIONS]\n\nFor more information, try '--help'.\n"),
    ("solve", "", 0, "s 0\n", ""),
    ("solve", "J A T", 0, PLACED, ""),
    ("solve --at 1", "J J600 A T", 0, PLACED, ""),
    ("solve", "J A T Used950 Used0", 0, "s 500\nf 2 1 1\nf 5 2 1\n", ""),
    ("solve", "J A T OnA", 0, "s 0\nf 3 1 1\nf 4 3 1\n", ""),
    ("solve", "J A T OnA Lost", 0, "s 500\nf 2 1 1\nf 4 2 1\n", ""),
    ("solve", "J A T0 Used40", 0, "s 40\nf 3 4 1\nf 4 1 1\nf 5 3 1\n", ""),
    ("solve", "J700 A T600 U500", 0, "s 1100\nf 3 5 1\nf 4 5 1\nf 5 1 2\nf 6 4 1\nf 7 3 1\n", ""),
    ("solve", "JPreempt80 AOneSlot T OnA U0 Used0", 0, "s 180\nf 2 1 1\nf 3 4 1\nf 4 1 1\nf 5 2 1\nf 6 3 1\n", ""),
    ("solve --at 2", "J A T", 3, "", "firmament: refusal 8\n"),
    ("solve", "J NoSlots", 3, "", "firmament: refusal 2 at step 2\n"),
    ("fleet", "J A T", 0, "calls 1 4\naudit ok\ngather 5\nsame\n", ""),
    ("fleet --rounds 2", "J NoSlots T", 3, "", "firmament: refusal 2 at step 2\n"),
    ("winners", "J Strange", 3, "", "firmament: refusal 16 at step 2\n"),
    ("solve", "J Strange", 3, "", "firmament: refusal 16 at step 2\n"),
    ("agree", "J Strange", 3, "", "firmament: refusal 16 at step 2\n"),
    ("pack p1", "J Strange", 3, "", "firmament: refusal 16 at step 2\n"),
    ("fleet", "J Strange", 3, "", "firmament: refusal 16 at step 2\n"),
    ("fleet", "J CutFirst", 3, "", "firmament: refusal 16 at step 2\n"),
    ("winners", "J Elsewhere", 3, "", "firmament: refusal 8 at step 2\n"),
    ("solve", "J CutSecond", 3, "", "firmament: refusal 4 at step 2\n"),
    ("agree", "J NoSlots", 3, "", "firmament: refusal 2 at step 2\n"),
    ("pack p1", "J CutFirst Elsewhere", 3, "", "firmament: refusal 8 at step 3\n"),
    ("fleet", "J Elsewhere NoSlots", 3, "", "firmament: refusal 8 at step 2\n"),
    ("xyz", "", 2, "", "error: unrecognized subcommand 'xyz'\n\nUsage: firmament <COMMAND>\n\nFor more information, try '--help'.\n"),
    ("pack", "", 2, "",
     "error: the following required arguments were not provided:\n  <NAME>\n\nUsage: firmament pack <NAME>\n\nFor more information, try "
     "'--help'.\n"),
]
# runs of several coordinators: the words, the coordinators, the steps by name, and then as above
WORLDS = [
    ("agree", "1", "", 0, "same\n", ""),
    ("agree", "3,1", "", 0, "same\n", ""),
    ("fleet --rounds 1", "1,2", "J A T", 0, "calls 1 7\ncalls 2 4\naudit ok\ngather 15\nsame\n", ""),
    ("agree", "1,2", "J", 5, "differ 1 2\n", ""),
    ("agree", "7,64,1", "7:J 7:CutA 64:GetA", 5, "differ 7 1\n", ""),
    ("agree", "1,2", "J CutA 2:GetA 2:GetA", 0, "same\n", ""),
    ("agree", "1,2,3", "J JTwo CutFirst CutSecond CutBoth 2:GetBoth 3:GetSecond 3:GetFirst 3:GetSecond 3:GetFirst", 0, "same\n", ""),
    ("pack p3", "1,2,3", "J JTwo CutFirst CutSecond CutBoth", 0,
     "4644473201000000000000000300000000000000010000000000000000000000000000000100000000000000020100000002580000032000000000000000000000"
     "0000000000000000000000000000\n", ""),
    ("pack a", "1", "J A T OnA Lost CutA", 0,
     "4644473201000000000000000100000000000000010000000000000000000000000000000100000000000000010100000001f40000032000000000000000010000"
     "0000000000000000000000000011000000000001000000000000000101000000000000000000000000000000000100000064000000000000000001000000000000"
     "0000000000000000000a00000000000000020200000000000000010000000000000000000000010000000000000000000000000000001100000000010000000000"
     "000000000000000000000a0000000000000001\n", ""),
    ("pack none", "1", "J A T CutNone", 0, "464447320100000000000000010000000000000000000000000000000000000000000000000000000000000000\n",
     ""),
    ("pack b", "1", "J CutA", 3, "", "firmament: refusal 9\n"),
    ("pack b", "1", "J NoSlots", 3, "", "firmament: refusal 2 at step 2\n"),
    ("graph", "1,2", "2:J 2:A 2:T", 0, NOTHING, ""),
    ("graph --at 2", "1,2", "2:J 2:A 2:T", 0, WAITING, ""),
    ("graph --at 2", "1,2", "J A CutA 2:T 2:GetA", 0, WAITING, ""),
    ("graph", "2,1", "J A CutA 2:T 2:GetA", 0, WAITING, ""),
    ("why ..011", "2,1", "J A CutA 2:T 2:GetA", 0, RUNS_AT_A, ""),
    ("why ..011", "1,2", "J A CutA 2:T 2:GetA", 0, "task ..011 is not known\n", ""),
    ("list", "1,2", "2:J 2:A 2:T", 0, "", ""),
    ("list --at 2", "1,2", "J A CutA 2:T 2:GetA", 0, LISTED, ""),
    ("list", "2,1", "J A CutA 2:T 2:GetA Trim1", 0, LISTED, ""),
    ("list", "1", "J A T Round", 0, JOB_LINE + HOLDER_LINE + HELD_LINE, ""),
    ("solve --at 2", "1,2", "J A CutA 2:T 2:GetA", 0, PLACED, ""),
    ("winners --at 1", "1,2", "J A B T OnA CutA 2:OnB 2:CutB 2:GetA GetB", 0, "..011 0 1 ..00a 1 held\n", ""),
    ("winners --at 2", "1,2", "J A B T OnA CutA 2:OnB 2:CutB GetB 2:GetA", 0, "..011 0 1 ..00a 1 held\n", ""),
    ("winners", "1", "JPreempt80 AOneSlot T OnA U0 Used0 Round", 0, "", ""),
    ("winners", "1", "JPreempt80 AOneSlot T OnA U0 Used0 Round Round", 0, "..012 0 1 ..00a 1 held\n", ""),
    ("winners", "1", "J A T Round", 0, "..011 0 1 ..00a 1 held\n", ""),
    ("graph", "1", "J A T Round", 0, HELD, ""),
    ("winners", "1", "J A T Last LastOnB Round", 0, "..011 4294967295 1 ..00b 1 free\n", ""),
    ("winners --at 2", "1,2", "J A T CutA 2:GetA 2:Round 2:CutB GetB", 0, "..011 0 2 ..00a 1 held\n", ""),
    ("agree", "1,2", "J A T CutA 2:GetA 2:Round 2:CutB GetB", 0, "same\n", ""),
    ("graph", "1", "J J600 Trim1 CutBoth", 3, "", "firmament: refusal 5 at step 4\n"),
    ("graph", "1", "J A T CutBackwards", 3, "", "firmament: refusal 4 at step 4\n"),
    ("graph", "1", "J A T CutFour", 3, "", "firmament: refusal 4 at step 4\n"),
    ("graph", "1", "J A T Trim2 CutLater", 3, "", "firmament: refusal 5 at step 5\n"),
    ("graph", "1", "J A T Trim2 Trim1", 3, "", "firmament: refusal 4 at step 5\n"),
    ("graph", "1", "J A T Trim9", 3, "", "firmament: refusal 4 at step 4\n"),
    ("agree", "1", "GetFirst", 3, "", "firmament: refusal 9 at step 1\n"),
    ("agree", "1", "J CutA GetFirst CutFirst", 3, "", "firmament: refusal 9 at step 3\n"),
    ("agree", "1", "9:GetFirst", 3, "", "firmament: refusal 8 at step 1\n"),
    ("agree", "1", "J 2:Round", 3, "", "firmament: refusal 8 at step 2\n"),
    ("agree", "1,2", "9:J CutA 2:CutA", 3, "", "firmament: refusal 16 at step 3\n"),
    ("agree", "1,1", "", 3, "", "firmament: refusal 16\n"),
    ("agree --at 1", "1", "", 2, "",
     "error: unexpected argument '--at' found\n\nUsage: firmament agree\n\nFor more information, try '--help'.\n"),
]
# packets in hexadecimal digits, and then the status, what is written of them, and the text for standard error
PACKETS = [
    (
     "4644473101000000000000000300000000000000010000000000000000000000000000000100000000000000020100000002580000032000000000000000000000"
     "0000000000000000000000000000", 0, "packet 1 3\njob ..001 2 1 false 600 800\n", ""),
    (
     "4644473101000000000000000300000000000000010000000000000000000000000000000100000000000000020100000002580000032000000000000000000000"
     "0000000000000000000000000000\n", 0, "packet 1 3\njob ..001 2 1 false 600 800\n", ""),
    (
     "4644473101000000000000000300000000000000010000000000000000000000000000000100000000000000020100000002580000032100000000000000000000"
     "0000000000000000000000000000", 0, "packet 1 3\njob ..001 2 1 false 600 801\n", ""),
    (
     "4644473101000000000000000100000000000000010000000000000000000000000000000100000000000000010100000001f40000032000000000000000010000"
     "0000000000000000000000000011000000000001000000000000000101000000000000000000000000000000000100000064000000000000000100000000000000"
     "00000000000000000a0000000000000002020000000000000001000000000000000000000001000000000000000000000000000000110000000001000000000000"
     "0000000000000000000a0000000000000001\n", 0,
     "packet 1 1\njob ..001 1 1 false 500 800\ntask ..011 0 pending\nspec ..011 1 1 false ..001 100\nmachine ..00a 2\nreport ..00a 1 0\n"
     "propose ..011 0 1 ..00a 1\n", ""),
    (
     "4644473100000000000000000300000000000000010000000000000000000000000000000100000000000000020100000002580000032000000000000000000000"
     "0000000000000000000000000000", 3, "", "firmament: refusal 6\n"),
    (
     "46444731010000000000000003000000000000000100000000000000000000000000000001000000000000000201003b9aca010000032000000000000000000000"
     "0000000000000000000000000000", 3, "", "firmament: refusal 6\n"),
    (
     "4644473101000000000000000300000000000000010000000000000000000000000000000100000000000000020100000002580000032000000000000000000000"
     "000000000000000000000000000000", 3, "", "firmament: refusal 6\n"),
    (
     "4644473101000000000000000300000000000000010000000000000000000000000000000100000000000000020100000002580000032000000000000000000000"
     "00000000000000000000000000", 3, "", "firmament: refusal 6\n"),
    ("", 3, "", "firmament: refusal 6\n"),
    (
     "4644473101000000000000000300000000000000010000000000000000000000000000000100000000000000020100000002580000032000000000000000000000"
     "000000000000000000000000000", 3, "", "firmament: refusal 16\n"),
    (
     "4644473101000000000000000300000000000000010000000000000000000000000000000100000000000000020100000002580000032000000000000000000000"
     "0000000000000000000000000000\n\n", 3, "", "firmament: refusal 16\n"),
    (
     " 464447310100000000000000030000000000000001000000000000000000000000000000010000000000000002010000000258000003200000000000000000000"
     "00000000000000000000000000000", 3, "", "firmament: refusal 16\n"),
    ("4g", 3, "", "firmament: refusal 16\n"),
]
WRITE_FAULT = "firmament: refusal 17\n"
# output that takes so many bytes at a time until it has no room: the words, the steps by name, the room, how many at a time, the
# status, what is written, and the text for standard error
WRITES = [
    ("graph", "J A T", 0, 100, 6, "", WRITE_FAULT),
    ("graph", "J A T", 10, 100, 6, WAITING[:10], WRITE_FAULT),
    ("graph", "J A T", 10, 3, 6, WAITING[:10], WRITE_FAULT),
    ("graph", "J A T", 1000, 0, 6, "", WRITE_FAULT),
    ("graph", "J A T", 1000, 1, 0, WAITING, ""),
    ("graph", "J A T NoSlots", 0, 1, 3, "", "firmament: refusal 2 at step 4\n"),
    ("--help", "", 0, 1, 6, "", WRITE_FAULT),
    ("winners", "J A T OnA", 0, 100, 6, "", WRITE_FAULT),
    ("list", "J A T", 0, 100, 6, "", WRITE_FAULT),
    ("list", "J A T", 10, 3, 6, "job 000000", WRITE_FAULT),
    ("list", "J A T", 1000, 1, 0, LISTED, ""),
    ("solve", "J A T", 0, 100, 6, "", WRITE_FAULT),
    ("solve", "J A T", 0, 3, 6, "", WRITE_FAULT),
    ("solve", "J A T", 10, 3, 6, PLACED[:10], WRITE_FAULT),
    ("solve", "J A T", 1000, 0, 6, "", WRITE_FAULT),
    ("solve", "J A T", 1000, 1, 0, PLACED, ""),
    ("agree", "J", 0, 100, 6, "", WRITE_FAULT),
    ("pack p1", "J CutFirst", 0, 100, 6, "", WRITE_FAULT),
    ("fleet", "J A T", 0, 100, 6, "", WRITE_FAULT),
    ("help refusals", "", 0, 100, 6, "", WRITE_FAULT),
    ("--version", "", 0, 100, 6, "", WRITE_FAULT),
    ("--version", "", 10, 100, 6, "firmament ", WRITE_FAULT),
]


MOST_VERSION, MOST_ATTEMPT = 2 ** 64 - 1, 2 ** 32 - 1
# what asks coordinator 1 for the next version of a job, and of machine 00a, and for the next attempt of a task
NEXT_JOB, NEXT_TASK = '{"at":1,"ask":"next","job":"..%s"}', '{"at":1,"ask":"next","task":"..%s"}'
NEXT_A = '{"at":1,"ask":"next","machine":"..00a","incarnation":%d}'
JOB_OF = '{"at":1,"tell":{"job":{"id":"..001","version":%d,"writer":1,"withdrawn":true,"wait":0,"preempt":0}}}'
A_OF = '{"at":1,"tell":{"machine":{"id":"..00a","incarnation":%d,"version":%d,"writer":1,"up":true,"slots":1,"nic":0}}}'
U_ON_A = '{"at":1,"tell":{"propose":{"id":"..012","attempt":0,"coordinator":2,"machine":"..00a","incarnation":1}}}'
U_OF = '{"at":1,"tell":{"progress":{"id":"..012","attempt":%d,"phase":"done"}}}'
# none of these is a line of a stream
NO_LINES = [
    '{"ask":"Version"}', '{"ask":["version"]}', '{"ask":"version","at":1}', '{"ask":"version","more":1}', '{"at":1,"ask":"version"}',
    '{"ask":"list"}', '{"at":1,"ask":"lists"}', '{"at":256,"ask":"list"}', '{"at":1,"list":true}', '{"at":1,"of":"jobs"}',
    '{"ask":"list","of":"jobs"}', '{"at":1,"ask":"list","of":"all"}', '{"at":1,"ask":"list","of":"job"}',
    '{"at":1,"ask":"list","of":"held"}', '{"at":1,"ask":"list","of":"Jobs"}', '{"at":1,"ask":"list","of":""}',
    '{"at":1,"ask":"list","of":null}', '{"at":1,"ask":"list","of":["jobs"]}', '{"at":1,"ask":"list","of":"jobs","more":1}',
    '{"at":1,"ask":"list","kind":"jobs"}', '{"at":1,"ask":"list","task":"..011"}', '{"at":1,"ask":"graph","of":"jobs"}',
    '{"at":1,"ask":"next"}', '{"ask":"next","job":"..001"}', '{"at":1,"ask":"next","of":"jobs"}', '{"at":1,"ask":"why","job":"..001"}',
    '{"at":1,"next":"job","job":"..001"}', '{"at":1,"ask":"next","spec":"..011"}', '{"at":1,"ask":"next","job":1}',
    '{"at":1,"ask":"next","job":"001"}', '{"at":1,"ask":"next","task":"..0011"}', '{"at":1,"ask":"next","task":null}',
    '{"at":1,"ask":"next","task":"..011","job":"..001"}', '{"at":1,"ask":"next","job":"..001","incarnation":1}',
    '{"at":1,"ask":"next","task":"..011","incarnation":1}', '{"at":1,"ask":"next","incarnation":1}',
    '{"at":1,"ask":"next","machine":"..00a"}', '{"at":1,"ask":"next","machine":"..0a","incarnation":1}',
    '{"at":1,"ask":"next","machine":"..00a","incarnation":1,"more":1}', '{"ask":"next","machine":"..00a","incarnation":1}',
    '{"ask":"size"}', '{"at":1,"ask":"sizes"}', '{"at":1,"ask":"Size"}', '{"at":1,"ask":"size","of":"jobs"}', '{"at":1,"ask":"size","more":1}',
    '{"at":1,"size":true}', '{"at":256,"ask":"size"}',
    *(NEXT_A.replace("%d", number) for number in ('"1"', "1.0", "1e0", "-1", "-0", "true", "null", "[1]", str(MOST_VERSION + 1)))]
# lines of a stream of coordinators 1 and 2, by the name of a step or as they stand, each with its answer
LINES = [
    ('{"ask":"version"}', "refusal 16"), ('{"at":1,"ask":"list"}', "refusal 16"), (NEXT_TASK % "011", "refusal 16"),
    ('{"coordinators":[1,2]}', "ok"),
    ('{"ask":"version"}', "firmament %s FDG1 FDG2\nok" % followed.VERSION),
    # nothing is known
    ('{"at":1,"ask":"list"}', "ok"), *(('{"at":1,"ask":"list","of":"%s"}' % kind, "ok") for kind in reference.LISTED),
    (NEXT_JOB % "001", "next 1\nok"), (NEXT_A % 0, "next 1\nok"), (NEXT_TASK % "011", "next 1\nok"),
    # a task whose second attempt nobody placed, and one that is placed later
    *((step, "ok") for step in ("J", "A", "T", "U0", "OnA", "TDone", "TAgain", "U500")),
    ('{"at":1,"ask":"list","of":"jobs"}', JOB_LINE + "ok"), ('{"at":1,"of":"machines","ask":"list"}', MACHINE_LINE + "ok"),
    ('{"ask":"list","of":"tasks","at":1}',
     "task ..011 1 pending 1 1 ..001 100 waiting\ntask ..012 0 pending 1 1 ..001 500 waiting\nok"),
    (U_ON_A, "ok"), ('{"at":1,"ask":"list","of":"waiting"}', "task ..011 1 pending 1 1 ..001 100 waiting\nok"),
    ("TGone", "ok"), ('{"at":1,"ask":"list","of":"waiting"}', "ok"), ('{"at":2,"ask":"list"}', "ok"),
    ('{"at":1,"ask":"list"}',
     JOB_LINE + "machine ..00a 1 1 1 open 2 1000 1 500 500\ntask ..011 1 pending 2 3 ..001 100 over\n"
     "task ..012 0 pending 1 1 ..001 500 held ..00a\nok"),
    (NEXT_JOB % "001", "next 2\nok"), (NEXT_A % 1, "next 2\nok"), (NEXT_TASK % "011", "next 2\nok"), (NEXT_TASK % "012", "next 1\nok"),
    ('{"at":2,"ask":"next","job":"..001"}', "next 1\nok"), ('{"at":1,"ask":"next","job":"{..001}"}', "next 2\nok"),
    # an id of another kind is one that nobody knows
    (NEXT_JOB % "011", "next 1\nok"), (NEXT_TASK % "00a", "next 1\nok"),
    # a version belongs to the present incarnation
    *((NEXT_A % incarnation, "next 1\nok") for incarnation in (0, 2, MOST_VERSION)),
    ("ADown", "ok"), (NEXT_A % 1, "next 5\nok"), ("Lost", "ok"), (NEXT_A % 1, "next 1\nok"), (NEXT_A % 2, "next 1\nok"),
    ('{"at":1,"ask":"list","of":"machines"}', LOST_LINE + "ok"),
    # behind the greatest number there is no next one
    (JOB_OF % (MOST_VERSION - 1), "ok"), (NEXT_JOB % "001", "next %d\nok" % MOST_VERSION),
    (JOB_OF % MOST_VERSION, "ok"), (NEXT_JOB % "001", "refusal 14"), (NEXT_JOB % "002", "next 1\nok"),
    ('{"at":1,"ask":"list","of":"jobs"}', "job ..001 %d 1 true 0 0\nok" % MOST_VERSION),
    (A_OF % (MOST_VERSION, MOST_VERSION), "ok"), (NEXT_A % MOST_VERSION, "refusal 14"), (NEXT_A % (MOST_VERSION - 1), "next 1\nok"),
    ('{"at":1,"ask":"list","of":"machines"}', "machine ..00a %d %d 1 open 1 0 0 0 0\nok" % (MOST_VERSION, MOST_VERSION)),
    (U_OF % (MOST_ATTEMPT - 1), "ok"), (NEXT_TASK % "012", "next %d\nok" % MOST_ATTEMPT), ("Last", "ok"), (NEXT_TASK % "011", "refusal 15"),
    ('{"at":1,"ask":"list","of":"tasks"}',
     "task ..011 %d running 2 3 ..001 100 over\ntask ..012 %d done 1 1 ..001 500 over\nok" % (MOST_ATTEMPT, MOST_ATTEMPT - 1)),
    # that nobody has the number comes before what is spent, and behind what is no line
    ('{"at":3,"ask":"list"}', "refusal 8"), ('{"at":3,"ask":"list","of":"waiting"}', "refusal 8"),
    ('{"at":3,"ask":"next","job":"..001"}', "refusal 8"), ('{"at":3,"ask":"list","of":"all"}', "refusal 16"),
    *((line, "refusal 16") for line in NO_LINES),
    # and nothing was changed by all that was asked
    ('{"at":1,"ask":"end"}', "end 0 17\nok"), ('{"at":2,"ask":"end"}', "end 0 0\nok"),
]


SIZED = "jobs machines tasks proposals waiting held over open closed requested reported spare entries limit first next packet".split()


def sized(*numbers, entries=0, first=0, last=0, packet=45):
    """The answer to a question of size, with the numbers of what is known."""
    return "".join("%s %d\n" % line for line in zip(SIZED, (*numbers, entries, 1000000, first, last, packet))) + "ok"


SIZE = '{"at":1,"ask":"size"}'
NOTHING_KNOWN = (0,) * 12
SIZES = [
    (SIZE, "refusal 16"), ('{"coordinators":[2,1]}', "ok"), (SIZE, sized(*NOTHING_KNOWN)), ('{"ask":"size","at":2}', sized(*NOTHING_KNOWN)),
    ('{"at":3,"ask":"size"}', "refusal 8"),
    # a task that is told to be done is no live one without a spec, and a machine that nothing but a report is known of is closed
    ("TDone", "ok"), ("Used40", "ok"), (SIZE, sized(0, 1, 1, 0, 0, 0, 1, 0, 1, 0, 0, 0, entries=2, last=2, packet=104)),
    ("TAgain", "ok"), ("J", "ok"), ("A", "ok"), (SIZE, sized(1, 1, 1, 0, 0, 0, 1, 1, 0, 0, 40, 960, entries=5, last=5, packet=156)),
    ("T", "ok"), ("J", "ok"), (SIZE, sized(1, 1, 1, 0, 1, 0, 0, 1, 0, 0, 40, 960, entries=7, last=7, packet=187)),
    # proposals are counted for each attempt, and for each coordinator once
    ("OnA", "ok"), ("OnB", "ok"), ("OnB", "ok"), (SIZE, sized(1, 1, 1, 2, 1, 0, 0, 1, 0, 0, 40, 960, entries=10, last=10, packet=277)),
    ('{"at":1,"round":{"writers":[2]}}', "ok"), (SIZE, sized(1, 1, 1, 2, 1, 0, 0, 1, 0, 0, 40, 960, entries=11, last=11, packet=277)),
    ('{"at":1,"round":{"writers":[1]}}', "place ..011 ..00a 1 accepted\nok"),
    (SIZE, sized(1, 1, 1, 3, 0, 1, 0, 1, 0, 100, 40, 900, entries=12, last=12, packet=322)),
    ("U500", "ok"), ("B", "ok"), (SIZE, sized(1, 2, 2, 3, 1, 1, 0, 2, 0, 100, 40, 1900, entries=14, last=14, packet=418)),
    ("Used950", "ok"), (SIZE, sized(1, 2, 2, 3, 1, 1, 0, 2, 0, 100, 950, 1050, entries=15, last=15, packet=418)),
    # what has too great a load has nothing to spare
    ("Used1001", "ok"), (SIZE, sized(1, 2, 2, 3, 1, 1, 0, 2, 0, 100, 1001, 1000, entries=16, last=16, packet=418)),
    # what is refused or asked adds no entry; cuts, news and trims add one and no delta, and own news that there are none add none
    ("Trim9", "ok"), (SIZE, sized(1, 2, 2, 3, 1, 1, 0, 2, 0, 100, 1001, 1000, entries=17, first=9, last=16, packet=418)),
    ("Trim1", "refusal 4"), ("GetA", "refusal 9"), ("NoSlots", "refusal 2"), ('{"at":1,"ask":"end"}', "end 9 16\nok"),
    ('{"at":2,"news":true,"mine":true}', "ok"), (SIZE.replace("1", "2"), sized(*NOTHING_KNOWN)),
    (SIZE, sized(1, 2, 2, 3, 1, 1, 0, 2, 0, 100, 1001, 1000, entries=17, first=9, last=16, packet=418)),
    # a machine that is lost, or down, has reported nothing and has nothing to spare, and its tasks wait
    ("Lost", "ok"), (SIZE, sized(1, 2, 2, 3, 2, 0, 0, 1, 1, 0, 0, 1000, entries=18, first=9, last=17, packet=400)),
    ("TGone", "ok"), (SIZE, sized(1, 2, 2, 3, 1, 0, 1, 1, 1, 0, 0, 1000, entries=19, first=9, last=18, packet=400)),
    ("JGone", "ok"), (SIZE, sized(1, 2, 2, 3, 0, 0, 2, 1, 1, 0, 0, 1000, entries=20, first=9, last=19, packet=400)),
    ('{"renew":true}', "ok"), (SIZE, sized(1, 2, 2, 3, 0, 0, 2, 1, 1, 0, 0, 1000, entries=1, last=1, packet=400)),
    (SIZE.replace("1", "2"), sized(*NOTHING_KNOWN, entries=1, last=1)),
]

# what no round is asked for by
NO_SHARES = [
    '{"writers":[]}', '{"writers":[1,1]}', '{"writers":[2,1,2]}', '{"writers":[0]}', '{"writers":[65]}', '{"writers":[1,65]}', '{"writers":[-1]}',
    '{"writers":[256]}', '{"writers":[257]}', '{"writers":["1"]}', '{"writers":[1.0]}', '{"writers":[true]}', '{"writers":[null]}',
    '{"writers":[[1]]}', '{"writers":1}', '{"writers":true}', '{"writers":null}', '{"writers":{}}', '{"writers":{"1":1}}', '{"writers":"1"}',
    '{"writers":[%s]}' % ",".join(map(str, [*range(1, 65), 1])), '{"each":0}', '{"each":4294967296}', '{"each":18446744073709551616}',
    '{"each":-1}', '{"each":-0}', '{"each":1.0}', '{"each":1e0}', '{"each":"1"}', '{"each":null}', '{"each":true}', '{"each":[1]}',
    '{"each":{}}', '{"x":1}', '{"Each":1}', '{"writer":[1]}', '{"writers":[1],"x":1}', '{"each":1,"x":1}',
    '{"writers":[1],"each":1,"more":null}', '{"writers":[1],"each":0}', '{"writers":[],"each":1}', '{"each":1,"each":0}', '{"round":true}',
    'null', 'false', '1', '0', '"true"', '""', '[]', '[1]', '[{}]', '[true]']
# what one is asked for by
EVERY_SHARE = [
    'true', '{}', '{"each":1}', '{"each":4294967295}', '{"writers":[64]}', '{"writers":[1,3],"each":2}', '{"each":2,"writers":[3,1]}',
    '{"writers":[%s]}' % ",".join(map(str, range(64, 0, -1))), '{"each":0,"each":1}', '{"writers":[],"writers":[2]}', '{"wr\\u0069ters":[1]}']
ROUND_BY = '{"at":1,"round":%s}'
# two tasks that wait for the same machine, of writers 1 and 2
SHARES = [
    (ROUND_BY % '{}', "refusal 16"), ('{"coordinators":[1,2]}', "ok"), *((ROUND_BY % share, "ok") for share in EVERY_SHARE),
    *((ROUND_BY % share, "refusal 16") for share in NO_SHARES), ('{"at":1,"round":true,"each":1}', "refusal 16"),
    ('{"at":1,"round":true,"writers":[1]}', "refusal 16"), ('{"round":{}}', "refusal 16"), ('{"at":1,"round":{},"more":1}', "refusal 16"),
    ('{"at":3,"round":{}}', "refusal 8"), ('{"at":3,"round":{"writers":[3],"each":1}}', "refusal 8"), ('{"at":3,"round":{"each":0}}', "refusal 16"),
    ('{"at":1,"ask":"end"}', "end 0 %d\nok" % len(EVERY_SHARE)),
    *((step, "ok") for step in ("J", "A", "T", "UBy2", "RoundOfNobody")), ("RoundOf2OneEach", "place ..012 ..00a 1 accepted\nok"),
    ("RoundOf2", "ok"), ("RoundOf1", "place ..011 ..00a 1 accepted\nok"), ("RoundOfAll", "ok"),
    ('{"at":1,"ask":"winners"}', "..011 0 1 ..00a 1 held\n..012 0 1 ..00a 1 held\nok"),
    ('{"at":1,"ask":"end"}', "end 0 %d\nok" % (len(EVERY_SHARE) + 9)),
    # which of two is left out is said by their ids
    ("TAgain", "ok"), ('{"at":1,"tell":{"progress":{"id":"..012","attempt":1,"phase":"pending"}}}', "ok"),
    ("RoundOfOneEach", "place ..011 ..00a 1 accepted\nok"), ("RoundOfOneEach", "place ..012 ..00a 1 accepted\nok"), ("RoundOfOneEach", "ok"),
]
# a task of writer 1 has the only slot, and an urgent one of writer 2 waits
PREEMPTS = [
    ('{"coordinators":[1]}', "ok"), *((step, "ok") for step in ("JPreempt80", "AOneSlot", "T", "OnA", "JUrgent", "VBy2", "RoundOfNobody")),
    ('{"at":1,"ask":"plan"}', "place ..013 ..00a 1\npreempt ..011 0\nok"), ("RoundOf2", "place ..013 ..00a 1 no-slot\nok"),
    ("RoundOf2OneEach", "place ..013 ..00a 1 no-slot\nok"), ('{"at":1,"ask":"winners"}', "..011 0 1 ..00a 1 held\nok"),
    # preempts are not counted
    ("RoundOfBothOneEach", "place ..013 ..00a 1 no-slot\npreempt ..011 0 accepted\nok"), ('{"at":1,"ask":"stops"}', "stop ..011 0 ..00a 1\nok"),
    ("RoundOf1", "ok"), ("RoundOf2", "place ..013 ..00a 1 accepted\nok"), ("RoundOfAll", "ok"),
    ('{"at":1,"ask":"winners"}', "..013 0 1 ..00a 1 held\nok"),
]


def told_job(job, preempt):
    return '{"at":1,"tell":{"job":{"id":"..%s","version":1,"writer":1,"withdrawn":false,"wait":50,"preempt":%d}}}' % (job, preempt)


def told_machine(machine, nic):
    return '{"at":1,"tell":{"machine":{"id":"..%s","incarnation":1,"version":1,"writer":1,"up":true,"slots":10,"nic":%d}}}' % (machine, nic)


def told_task(task, job, request, machine, attempt=0):
    """A task, and that it runs on a machine, as another coordinator might have it."""
    yield '{"at":1,"tell":{"spec":{"id":"..%s","version":1,"writer":1,"withdrawn":false,"job":"..%s","request":%d}}}' % (task, job, request)
    if attempt:
        yield '{"at":1,"tell":{"progress":{"id":"..%s","attempt":%d,"phase":"running"}}}' % (task, attempt)
    yield ('{"at":1,"tell":{"propose":{"id":"..%s","attempt":%d,"coordinator":1,"machine":"..%s","incarnation":1}}}' % (task, attempt, machine))


OVER = '{"at":1,"ask":"over"}'
NO_RELIEFS = [
    '{"at":1,"relieve":%s}' % asked for asked in ("false", "null", "1", '"true"', "{}", "[]", '{"each":1}')] + [
    '{"relieve":true}', '{"at":1,"relieve":true,"each":1}', '{"at":1,"relieve":true,"round":true}', '{"at":1,"Relieve":true}',
    '{"at":256,"relieve":true}', '{"ask":"over"}', '{"at":1,"ask":"Over"}', '{"at":1,"ask":"over","of":"machines"}', '{"at":1,"over":true}']
OVER_A = "over ..00a 2200 1100\npreempt ..014 0 400 100\npreempt ..015 0 400 100\npreempt ..013 0 300 100\n"
OVER_B = "over ..00b 101 100\npreempt ..017 0 101 100\n"
OVER_D = "over ..00d 10 9\npreempt ..019 4294967295 10 800\n"
RELIEFS = [
    ("Relieve", "refusal 16"), (OVER, "refusal 16"), ('{"coordinators":[1,2]}', "ok"), (OVER, "ok"), ("Relieve", "ok"),
    *((line, "refusal 16") for line in NO_RELIEFS), ('{"at":3,"relieve":true}', "refusal 8"), ('{"at":3,"ask":"over"}', "refusal 8"),
    ('{"at":1,"ask":"end"}', "end 0 1\nok"), (told_job("001", 800), "ok"), (told_job("002", 100), "ok"),
    *((line, "ok") for line in (told_machine("00a", 1100), told_machine("00b", 100), told_machine("00c", 1000), told_machine("00d", 9))),
    # on the first machine three cheap tasks go, and the two dear ones that are left just fit
    *((line, "ok") for task in (("011", "001", 600), ("012", "001", 500), ("013", "002", 300), ("014", "002", 400), ("015", "002", 400))
      for line in told_task(*task, "00a")),
    (OVER, OVER_A + "ok"),
    # what requests nothing goes last of its price, and what was reported as used does not count
    *((line, "ok") for task in (("016", "002", 0, "00b"), ("017", "002", 101, "00b"), ("018", "002", 10, "00c")) for line in told_task(*task)),
    ('{"at":1,"tell":{"report":{"id":"..00c","incarnation":1,"number":1,"used":1000000}}}', "ok"),
    # of a task that has no next attempt there is a line, and it stays
    *((line, "ok") for line in told_task("019", "001", 10, "00d", 4294967295)), (OVER, OVER_A + OVER_B + OVER_D + "ok"),
    ('{"at":2,"ask":"over"}', "ok"), ('{"at":2,"relieve":true}', "ok"),
    ("Relieve", "preempt ..014 0 accepted\npreempt ..015 0 accepted\npreempt ..013 0 accepted\npreempt ..017 0 accepted\n"
                "preempt ..019 4294967295 attempts-spent\nok"),
    (OVER, OVER_D + "ok"), ("Relieve", "preempt ..019 4294967295 attempts-spent\nok"),
    ('{"at":1,"ask":"stops"}', "".join("stop ..%s 0 ..%s 1\n" % stop for stop in (
        ("013", "00a"), ("014", "00a"), ("015", "00a"), ("017", "00b"))) + "ok"),
    ('{"at":1,"ask":"list","of":"machines"}', "machine ..00a 1 1 1 open 10 1100 2 1100 0\nmachine ..00b 1 1 1 open 10 100 1 0 100\n"
                                              "machine ..00c 1 1 1 open 10 1000 1 1000000 -\nmachine ..00d 1 1 1 open 10 9 1 10 -\nok"),
    # a machine that is closed holds nothing
    ('{"at":1,"tell":{"machine":{"id":"..00d","incarnation":1,"version":2,"writer":1,"up":false,"slots":10,"nic":9}}}', "ok"), (OVER, "ok"),
]

# checks

def checked(line):
    """The line that checks another one, by the name of a step or as it stands."""
    return '{"ask":"check","line":%s}' % STEPS.get(line, line)


def foretold(number, cause):
    """The answer to a check of a line that would be refused so."""
    return "refused %d\n%s\nok" % (number, cause)


def told(kind, **fields):
    """A line that tells an operation with other fields than it mostly has."""
    usual = {"job": {"id": "..001", "version": 1, "writer": 1, "withdrawn": False, "wait": 500, "preempt": 800},
             "spec": {"id": "..011", "version": 1, "writer": 1, "withdrawn": False, "job": "..001", "request": 100},
             "machine": {"id": "..00a", "incarnation": 1, "version": 1, "writer": 1, "up": True, "slots": 2, "nic": 1000},
             "report": {"id": "..00a", "incarnation": 1, "number": 1, "used": 0},
             "propose": {"id": "..011", "attempt": 0, "coordinator": 1, "machine": "..00a", "incarnation": 1}}[kind]
    return json.dumps({"at": 1, "tell": {kind: {**usual, **fields}}})


def taken(digits, at=1):
    return '{"at":%d,"take":"%s"}' % (at, digits)


def with_bytes(place, other):
    """The packet's digits with other ones from a byte on."""
    return ONE_OF_EACH[:2 * place] + other + ONE_OF_EACH[2 * place + len(other):]


ZERO, MOST_COST, MOST_BANDWIDTH = "0" * 32, "3b9aca01", "000f4241"
# a job, a task with a spec that prefers two machines, a machine with its state and a report, and two proposals for an attempt
ONE_OF_EACH = "".join((
    "46444732", "01", "0000000000000003",
    "0000000000000001", ZERO[:-2] + "01", "0000000000000001", "01", "00", "000001f4", "00000320",
    "0000000000000001", ZERO[:-2] + "11", "00000000", "00", "01", "0000000000000001", "01", "00", ZERO[:-2] + "01", "00000064",
    "02", ZERO[:-2] + "0a", "00000001", ZERO[:-2] + "0b", "00000001",
    "0000000000000001", ZERO[:-2] + "0a", "0000000000000001", "03", "0000000000000001", "01", "01", "00000002", "000003e8",
    "0000000000000001", "00000000",
    "0000000000000002", ZERO[:-2] + "11", "00000000", "01", ZERO[:-2] + "0a", "0000000000000001",
    ZERO[:-2] + "11", "00000000", "02", ZERO[:-2] + "0b", "0000000000000001"))
# digits of no packet, each with the byte where that is seen first
NO_PACKETS = [
    ("", 0), ("46", 1), ("46444732", 4), (ONE_OF_EACH[:200], 100), (ONE_OF_EACH[:-2], 316), (ONE_OF_EACH + "00", 317), (2 * ONE_OF_EACH, 317),
    *((with_bytes(place, other), place) for place, other in (
        (4, "00"), (4, "41"), (45, "00"), (45, "41"), (46, "02"), (47, MOST_COST), (51, MOST_COST), (83, "03"), (84, "02"), (93, "00"), (94, "02"),
        (111, MOST_BANDWIDTH), (115, "05"), (132, MOST_COST), (136, ZERO[:-2] + "0a"), (152, MOST_COST), (188, "00"), (188, "04"), (197, "41"),
        (198, "02"), (199, "00000000"), (199, "000003e9"), (203, MOST_BANDWIDTH), (215, MOST_COST), (247, "00"), (292, "41"))),
    # a version that there is not is seen at its first byte, and a record that does not come after the last one too
    (with_bytes(3, "30"), 0), (with_bytes(3, "33"), 0), (with_bytes(292, "01"), 272), (with_bytes(287, "1000000000" + "00"), 292),
    (with_bytes(287, "10"), 272), (with_bytes(136, ZERO[:-2] + "09" + MOST_COST), 136),
    # a second job, and its writer, are read where the tasks are
    (with_bytes(20, "02"), 79)]
NO_RANGE = [
    ("job", "writer", (0, 65, 255), 1, 64), ("job", "wait", (1000000001, 4294967295), 0, 1000000000), ("job", "preempt", (1000000001,), 0, 1000000000),
    ("spec", "writer", (0, 65), 1, 64), ("spec", "request", (1000001, 4294967295), 0, 1000000), ("machine", "writer", (0, 65), 1, 64),
    ("machine", "slots", (0, 1001), 1, 1000), ("machine", "nic", (1000001,), 0, 1000000), ("report", "used", (1000000001,), 0, 1000000000),
    ("propose", "coordinator", (0, 65), 1, 64)]
PREFER_A, PREFER_B = ({"machine": "..00%s" % name, "credit": 1} for name in "ab")
NO_PREFERENCES = [[PREFER_B, PREFER_A], [PREFER_A, PREFER_A], [{**PREFER_A, "credit": 1000000001}], [PREFER_A, {**PREFER_B, "credit": 4294967295}]]
# of several fields that are beyond their ranges the first is named
FIRST = [
    (told("job", preempt=1000000001, wait=1000000001, writer=0), "writer must be from 1 to 64"),
    (told("job", preempt=1000000001, wait=1000000001), "wait must be from 0 to 1000000000"),
    (told("spec", prefer=NO_PREFERENCES[0], request=1000001, writer=65), "writer must be from 1 to 64"),
    (told("spec", prefer=NO_PREFERENCES[0], request=1000001), "request must be from 0 to 1000000"),
    (told("machine", nic=1000001, slots=0, writer=65), "writer must be from 1 to 64"), (told("machine", nic=1000001, slots=0), "slots must be from 1 to 1000")]
NO_CHECKS = [
    '{"ask":"check"}', '{"line":{"ask":"agree"}}', '{"ask":"check","line":1}', '{"ask":"check","line":null}', '{"ask":"check","line":true}',
    '{"ask":"check","line":[]}', '{"ask":"check","line":[{"ask":"agree"}]}', '{"ask":"check","line":"{}"}', '{"ask":"check","line":""}',
    '{"at":1,"ask":"check","line":{"ask":"agree"}}', '{"at":1,"ask":"check"}', '{"ask":"check","line":{"ask":"agree"},"more":1}',
    '{"ask":"Check","line":{"ask":"agree"}}', '{"ask":["check"],"line":{"ask":"agree"}}', '{"ask":true,"line":{"ask":"agree"}}',
    '{"ask":"agree","line":{"ask":"agree"}}', '{"check":{"ask":"agree"}}', '{"ask":"check","Line":{"ask":"agree"}}',
    '{"ask":"check","line":{"ask":"agree"},"line":1}', '{"ask":"check","of":{"ask":"agree"}}', '{"ask":"check","line":{"ask":"agree"}', '{"ask":"check","line":{]}']
NO_LINE = foretold(16, "the line is none that can be asked now, by its form or by a member")
NO_DELTAS, NOT_NAMED = foretold(4, "there are no such deltas"), foretold(9, "no packet has this name")
# what is asked of a coordinator, without its number
AT_ANY = ['"tell":{"job":{"id":"..001","version":1,"writer":65,"withdrawn":false,"wait":0,"preempt":0}}', '"cut":{}', '"cut":{"from":9,"to":1}',
          '"deliver":"none"', '"trim":9', '"news":true', '"news":true,"mine":true', '"take":"%s"' % ONE_OF_EACH, '"round":true', '"round":{}',
          '"relieve":true', '"ask":"graph"', '"ask":"size"', '"ask":"list","of":"jobs"', '"ask":"next","job":"..001"', '"ask":"why","task":"..011"']
# lines that are accepted by coordinators that were told nothing
FINE = ['{"ask":"agree"}', '{"ask":"version"}', '{"renew":true}', *('{"at":2,%s}' % asked for asked in AT_ANY[1:2] + AT_ANY[5:]),
        '{"at":1,"cut":{"from":0,"to":0}}', '{"at":1,"trim":0}', '{"at":1,"cut":{"name":"p"}}', told("spec", prefer=[PREFER_A, PREFER_B]),
        *(told(kind, **{field: number}) for kind, field, _, *ends in NO_RANGE for number in ends)]
CHECKS = [
    # before the coordinators are listed
    (checked('{"coordinators":[1,2]}'), "accepted\nok"), (checked('{"coordinators":[]}'), NO_LINE), (checked('{"coordinators":[1,1]}'), NO_LINE),
    *((checked(line), NO_LINE) for line in ("J", '{"ask":"agree"}', '{"ask":"version"}', '{"renew":true}', '{"at":3,"trim":1}', '{}')),
    (checked(checked("J")), "accepted\nok"), (checked('{"ask":"check","line":1}'), NO_LINE), *((line, "refusal 16") for line in NO_CHECKS),
    ('{"coordinators":[1,2]}', "ok"), (checked('{"coordinators":[1,2]}'), NO_LINE), (checked('{"coordinators":[3]}'), NO_LINE),
    # what is no check is refused as any other line, and what is checked may have any members, in any order, as a line has
    *((line, "refusal 16") for line in NO_CHECKS), *((checked(line), NO_LINE) for line in ("Strange", "RoundOfNone", '{}', *NO_LINES)),
    *((checked(line), NO_LINE) for line in NO_CHECKS[:-2]), ('{"line":{"ask":"agree"},"ask":"check"}', "accepted\nok"),
    ('{"line":1,"ask":"list","ask":"check","line":{"ask":[],"ask":"agree"}}', "accepted\nok"), ('{"\\u0061sk":"ch\\u0065ck","line":{"ask":"agree"}}', "accepted\nok"),
    *((checked(line), "accepted\nok") for line in FINE),
    # a check of a check says nothing of the line that this one checks
    *((checked(checked(line)), "accepted\nok") for line in ("J", "Strange", '{}', checked("Strange"))), (checked(checked("1")), NO_LINE),
    (checked('{"ask":"check","line":{},"at":1}'), NO_LINE),
    # fields of operations
    *((checked(told(kind, **{field: number})), foretold(2, "%s must be from %d to %d" % (field, *ends))) for kind, field, numbers, *ends in NO_RANGE
      for number in numbers),
    *((checked(told("spec", prefer=prefer)), foretold(2, "prefer must list machines by rising id, with credits from 0 to 1000000000"))
      for prefer in NO_PREFERENCES), *((checked(line), foretold(2, cause)) for line, cause in FIRST),
    (checked(told("job", wait=4294967296, writer=0)), NO_LINE),
    # a coordinator that is not listed comes before all but the form and the digits
    *((checked('{"at":%d,%s}' % (at, asked)), foretold(8, "no coordinator has the number %d" % at)) for at in (0, 3, 255) for asked in AT_ANY),
    (checked('{"at":256,"trim":9}'), NO_LINE), (checked('{"at":3,"trim":-1}'), NO_LINE), (checked(taken("464", at=3)), NO_LINE),
    (checked(taken("46", at=3)), foretold(6, "the digits are no packet: see byte 1")),
    # digits
    *((checked(taken(digits)), NO_LINE) for digits in ("4", "4g", " 46", ONE_OF_EACH[:-1])), (checked('{"at":1,"take":7}'), NO_LINE),
    *((checked(taken(digits)), foretold(6, "the digits are no packet: see byte %d" % place)) for digits, place in NO_PACKETS),
    *((taken(digits), "refusal 6") for digits, _ in NO_PACKETS[-4:]), (checked(taken(ONE_OF_EACH.upper())), "accepted\nok"),
    # there are no deltas, and no packets with names
    *((checked(line), NO_DELTAS) for line in ("Trim1", "CutFirst", "CutBackwards", '{"at":1,"cut":{"from":1,"to":0}}')), (checked("GetFirst"), NOT_NAMED),
    # of all this nothing happened, and no packet was cut
    (SIZE, sized(*NOTHING_KNOWN)), (SIZE.replace("1", "2"), sized(*NOTHING_KNOWN)), (checked('{"at":2,"news":true}'), "accepted\nok"),
    ('{"at":2,"news":true}', "46444732020000000000000001" + 2 * ZERO + "\nok"),
    # news that are checked are news afterwards
    (told("job").replace("1", "2", 1), "ok"), *((checked('{"at":2,%s}' % asked), "accepted\nok") for asked in AT_ANY[5:7]),
    *(('{"at":2,%s}' % asked, "4644473202000000000000000%d" % place + ONE_OF_EACH[26:110] + ZERO[:16] + ZERO + "\nok")
      for place, asked in enumerate(AT_ANY[5:7], 2)),
    # what was trimmed, what was named
    *((step, "ok") for step in ("J", "A", "T")), (checked("CutFirst"), "accepted\nok"), (checked("Trim1"), "accepted\nok"), ("Trim1", "ok"),
    (checked("CutFirst"), foretold(5, "deltas below 1 are trimmed")), ("CutFirst", "refusal 5"), (checked("CutFour"), NO_DELTAS), (checked("Trim9"), NO_DELTAS),
    (checked('{"at":1,"trim":0}'), NO_DELTAS), (checked("CutLater"), "accepted\nok"), ("Trim2", "ok"),
    (checked("CutLater"), foretold(5, "deltas below 2 are trimmed")), (checked('{"at":2,"deliver":"none"}'), NOT_NAMED),
    (checked("CutNone"), "accepted\nok"), (checked('{"at":2,"deliver":"none"}'), NOT_NAMED),
    ("CutNone", "46444732010000000000000001" + 2 * ZERO + "\nok"), (checked("CutNone"), NO_LINE), (checked('{"at":3,"cut":{"name":"none"}}'), NO_LINE),
    (checked('{"at":2,"deliver":"none"}'), "accepted\nok"), (checked('{"at":2,"cut":{"name":"none","from":9,"to":1}}'), NO_LINE),
    # a round that is checked places nothing, and what it would place may be asked for afterwards
    *((checked(line), "accepted\nok") for line in ("Round", "RoundOf2OneEach", "Relieve", "Round")), ('{"at":1,"ask":"winners"}', "ok"),
    ("Round", "place ..011 ..00a 1 accepted\nok"), ('{"at":1,"ask":"end"}', "end 2 4\nok"),
    # what is spent
    (JOB_OF % MOST_VERSION, "ok"), (checked(NEXT_JOB % "001"), foretold(14, "the known version is 18446744073709551615, the greatest")),
    (checked(NEXT_JOB % "002"), "accepted\nok"), (A_OF % (MOST_VERSION, MOST_VERSION), "ok"),
    (checked(NEXT_A % MOST_VERSION), foretold(14, "the known version is 18446744073709551615, the greatest")), (checked(NEXT_A % 1), "accepted\nok"),
    ("Last", "ok"), (checked(NEXT_TASK % "011"), foretold(15, "the known attempt is 4294967295, the greatest")),
    (checked(NEXT_TASK % "012"), "accepted\nok"), (NEXT_TASK % "011", "refusal 15"),
    # a renewal that is checked is none
    (checked('{"renew":true}'), "accepted\nok"), (checked('{"renew":false}'), NO_LINE), ('{"at":1,"ask":"end"}', "end 2 7\nok"), (checked("CutNone"), NO_LINE),
    ('{"renew":true}', "ok"), (checked("CutNone"), NO_DELTAS), (checked('{"at":2,"deliver":"none"}'), NOT_NAMED), ('{"at":1,"ask":"end"}', "end 0 1\nok"),
]


def but(told, member, value):
    """The step of the name with another value of a member, or without the member if there is none."""
    at = json.loads(STEPS[told])
    (fields,) = at["tell"].values()
    if value is None:
        del fields[member]
    else:
        fields[member] = value
    return json.dumps(at)


ID, NUMBER, FLAG = "a UUID is wanted", "a whole number is wanted", "true or false is wanted"


def up_to(most, least=0):
    return "a whole number from %d to %d is wanted" % (least, most)


PRICE, BANDWIDTH, SEAT = up_to(1000000000), up_to(1000000), up_to(64, 1)
# the fields of operations, with a value that is none of each, or without the field, and what is wanted there
LACKING = [
    ("J", "id", None, ID), ("J", "id", "..01", ID), ("J", "version", -1, NUMBER), ("J", "version", 2 ** 64, NUMBER), ("J", "writer", 256, SEAT),
    ("J", "withdrawn", 0, FLAG), ("J", "wait", 2 ** 32, PRICE), ("J", "preempt", "1", PRICE),
    ("T", "id", 17, ID), ("T", "version", None, NUMBER), ("T", "writer", None, SEAT), ("T", "withdrawn", "false", FLAG),
    ("T", "job", None, ID),
    ("T", "request", 0.5, BANDWIDTH), ("T", "prefer", {}, "a list of at most four objects with machine and credit is wanted"),
    ("T", "prefer", [{"machine": "..00a"}], "a list of at most four objects with machine and credit is wanted"),
    ("TDone", "id", "", ID), ("TDone", "attempt", 2 ** 32, up_to(MOST_ATTEMPT)), ("TDone", "phase", "over", "pending, running or done is wanted"),
    ("A", "id", None, ID), ("A", "incarnation", "1", NUMBER), ("A", "version", 1.5, NUMBER), ("A", "writer", -1, SEAT), ("A", "up", None, FLAG),
    ("A", "slots", None, up_to(1000, 1)), ("A", "nic", True, BANDWIDTH),
    ("Used0", "id", [], ID), ("Used0", "incarnation", None, NUMBER), ("Used0", "number", None, NUMBER), ("Used0", "used", -1, PRICE),
    ("OnA", "id", None, ID), ("OnA", "attempt", None, up_to(MOST_ATTEMPT)), ("OnA", "coordinator", "1", SEAT), ("OnA", "machine", None, ID),
    ("OnA", "incarnation", None, NUMBER),
]
KINDS = {"J": "job", "T": "spec", "TDone": "progress", "A": "machine", "Used0": "report", "OnA": "propose"}
# fields that are out of their ranges, with the reasons
OUT_OF_RANGE = [
    ("J", "writer", 0, "writer must be from 1 to 64"), ("J", "wait", 1000000001, "wait must be from 0 to 1000000000"),
    ("J", "preempt", 1000000001, "preempt must be from 0 to 1000000000"), ("T", "writer", 65, "writer must be from 1 to 64"),
    ("T", "request", 1000001, "request must be from 0 to 1000000"),
    ("T", "prefer", [{"machine": "..00b", "credit": 1}, {"machine": "..00a", "credit": 1}],
     "prefer must list machines by rising id, with credits from 0 to 1000000000"),
    ("A", "slots", 0, "slots must be from 1 to 1000"), ("A", "nic", 1000001, "nic must be from 0 to 1000000"),
    ("Used0", "used", 1000000001, "used must be from 0 to 1000000000"), ("OnA", "coordinator", 65, "coordinator must be from 1 to 64"),
]
MEMBERS, ACTS = "a step has two members, at and what happens", "beside at, a step has tell, cut, deliver, trim, round or relieve"
KIND = "tell: one operation is wanted: job, spec, progress, machine, report or propose"
CUT = "cut: from and to are whole numbers, and one is not without the other"
SHARE = "round: true, or an object of writers and each, or of one of them, is wanted"
# steps of the coordinators 1 and 2, each the only one of its script, with the reason why it is at fault
FAULTY = [
    ('{"at":1}', MEMBERS), ("{}", MEMBERS), ("1", MEMBERS), ("null", MEMBERS), ("[]", MEMBERS),
    ('{"at":1,"trim":0,"cut":{"name":"a"}}', MEMBERS),
    ('{"at":256,"trim":0}', "at: a whole number from 0 to 255 is wanted"), ('{"at":"1","trim":0}', "at: a whole number from 0 to 255 is wanted"),
    ('{"trim":0,"round":true}', "at: a whole number from 0 to 255 is wanted"), ('{"at":1,"Trim":0}', ACTS), ('{"at":1,"news":true}', ACTS),
    ('{"at":1,"cut":{}}', "cut: a name is wanted, as a text"), ('{"at":1,"cut":{"name":1}}', "cut: a name is wanted, as a text"),
    ('{"at":1,"cut":"a"}', "cut: a name is wanted, as a text"), ('{"at":1,"cut":{"name":"a","from":1}}', CUT),
    ('{"at":1,"cut":{"name":"a","to":1}}', CUT), ('{"at":1,"cut":{"name":"a","from":0,"to":"1"}}', CUT),
    ('{"at":1,"tell":{}}', KIND), ('{"at":1,"tell":{"jobs":{}}}', KIND), ('{"at":1,"tell":{"job":{},"spec":{}}}', KIND),
    ('{"at":1,"tell":[]}', KIND),
    ('{"at":1,"tell":{"job":1}}', "tell: job: id: " + ID), ('{"at":1,"tell":{"propose":{}}}', "tell: propose: id: " + ID),
    ('{"at":1,"deliver":1}', "deliver: a text is wanted"), ('{"at":1,"trim":-1}', "trim: a whole number is wanted"),
    ('{"at":1,"round":false}', SHARE), ('{"at":1,"round":{"each":0}}', SHARE), ('{"at":1,"round":{"writers":[1],"more":1}}', SHARE),
    ('{"at":1,"relieve":false}', "relieve: true is wanted"), ('{"at":1,"relieve":1}', "relieve: true is wanted"),
    ('{"at":3,"trim":0}', "at: no coordinator has the number 3"), ('{"at":0,"round":true}', "at: no coordinator has the number 0"),
    ("GetA", "deliver: no earlier step cuts a packet of this name"),
    *((but(told, member, value), "tell: %s: %s: %s" % (KINDS[told], member, wanted)) for told, member, value, wanted in LACKING),
    *((but(told, member, value), "tell: " + wanted) for told, member, value, wanted in OUT_OF_RANGE),
]
# steps of the coordinators 1 and 2, by name or as they stand, and what is said of them
CHECKED = [
    ("", "accepted"), ("J A T OnA CutA 2:GetA 2:Round 2:Relieve 2:CutB GetB Trim1", "accepted"),
    # what depends on the histories is not looked for
    ("CutBoth Trim9 Trim1 CutBackwards", "accepted"),
    # the form of a later step comes before what an earlier one asks for
    ("J NoSlots Strange", "step 3: " + MEMBERS), ("J GetA 9:J", "step 2: deliver: no earlier step cuts a packet of this name"),
    ("J 9:J GetA", "step 2: at: no coordinator has the number 9"), ("J NoSlots GetA", "step 2: tell: slots must be from 1 to 1000"),
    ("NoSlots 9:J", "step 1: tell: slots must be from 1 to 1000"), ("9:NoSlots", "step 1: at: no coordinator has the number 9"),
    ("9:GetA", "step 1: at: no coordinator has the number 9"), ("MoreWait NoSlots", "step 1: tell: wait must be from 0 to 1000000000"),
    # a packet is there behind its cut, and its name is given once
    ("CutA GetA GetB", "step 3: deliver: no earlier step cuts a packet of this name"),
    ("GetA CutA", "step 1: deliver: no earlier step cuts a packet of this name"),
    ("CutA CutB 2:CutA", "step 3: cut: an earlier cut gave this name"), ("9:J CutA 2:CutA", "step 3: cut: an earlier cut gave this name"),
    ("CutB CutA GetA GetB GetC", "step 5: deliver: no earlier step cuts a packet of this name"),
    ("J " * 11 + "Strange", "step 12: " + MEMBERS),
]
LISTED_FAULT = "script: coordinators: at least one number, each from 1 to 64, none twice, is wanted"
# whole texts, and what is said of them
CHECKED_TEXTS = [
    ("", "script: no JSON"), ("{", "script: no JSON"), ('{"coordinators":[1],"steps":[]}x', "script: no JSON"),
    ("[]", LISTED_FAULT), ("{}", LISTED_FAULT),
    ('{"steps":[]}', LISTED_FAULT), ('{"coordinators":[],"steps":[]}', LISTED_FAULT), ('{"coordinators":[1,2,1],"steps":[]}', LISTED_FAULT),
    ('{"coordinators":[0],"steps":[]}', LISTED_FAULT), ('{"coordinators":[65],"steps":[1]}', LISTED_FAULT),
    ('{"coordinators":1,"steps":[]}', LISTED_FAULT),
    ('{"coordinators":["1"]}', LISTED_FAULT), ('{"coordinators":[1]}', "script: steps: a list is wanted"),
    ('{"coordinators":[1],"steps":{}}', "script: steps: a list is wanted"), ('{"coordinators":[64,1],"steps":[],"more":1}', "accepted"),
]
# refusals that a check finds
CHECKED_REFUSALS = {"2", "8", "9", "16"}


def expanded(text):
    """The text with each `..` written out; an end of a range is no id."""
    return re.sub(r"\.\.(?!=)", ZEROS, text)


def step(name):
    """The step of the name, which may have its coordinator before it."""
    at, _, name = name.rpartition(":")
    return STEPS[name].replace('"at":1', '"at":' + at, 1) if at else STEPS[name]


def listed(numbers, *steps):
    """The script of the coordinators and the steps, as they stand."""
    return expanded('{"coordinators":[%s],"steps":[%s]}\n' % (numbers, ",\n".join(steps)))


def script(steps, numbers="1"):
    """The script of the coordinators and the steps, by name."""
    return listed(numbers, *map(step, steps.split()))


def answer(status, out, err):
    """An answer, as it is seen."""
    return status, expanded(out).encode(), expanded(err).encode()


def checks(seen):
    """Checks of scripts: each reason, which of several comes first, and that a run that is refused is refused by that."""
    for faulty, reason in FAULTY:
        text = listed("1,2", STEPS.get(faulty, faulty))
        yield "check: %s: %s" % (faulty, reason), seen("check", text) == answer(3, "step 1: %s\n" % reason, "")
    for steps, line in CHECKED:
        yield "check: %s" % steps, seen("check", script(steps, "1,2")) == answer(3 * (line != "accepted"), line + "\n", "")
    for text, line in CHECKED_TEXTS:
        yield "check of a text: %s" % text, seen("check", text) == answer(3 * (line != "accepted"), line + "\n", "")
    for numbers, steps in sorted({("1", steps) for _, steps, *_ in RUNS} | {(numbers, steps) for _, numbers, steps, *_ in WORLDS}):
        text = script(steps, numbers)
        (status, out, _), (_, _, err) = seen("check", text), seen("agree", text)
        refused = re.fullmatch(rb"firmament: refusal (\d+)(?: at step (\d+))?\n", err)
        found = refused and refused[1].decode() in CHECKED_REFUSALS
        named = b"step %s: " % refused[2] if found and refused[2] else b"script: " if found else b"accepted\n"
        yield "check as it is run: %s at %s" % (steps, numbers), out.startswith(named) and status == (3 if found else 0)


def runs(seen):
    for words, steps, *wanted in RUNS:
        yield "%s: %s" % (words, steps), seen(expanded(words), script(steps)) == answer(*wanted)
    for words, numbers, steps, *wanted in WORLDS:
        yield "%s at %s: %s" % (words, numbers, steps), seen(expanded(words), script(steps, numbers)) == answer(*wanted)
    for packet, *wanted in PACKETS:
        yield "unpack " + packet, seen("unpack", packet) == answer(*wanted)
    yield from checks(seen)
    for words in ("--help", "help", "graph -h", "solve --help", "winners --help", "list --help", "help list", "agree --help", "pack --help",
                  "help check"):
        status, out, err = seen(words, script("Strange"))
        yield words, (status, err) == (0, b"") and out != b""


def lines(seen):
    """Streams of lines that were worked out by hand."""
    for name, stream in (("lines", LINES), ("sizes", SIZES), ("shares", SHARES), ("preempts of shares", PREEMPTS), ("reliefs", RELIEFS),
                         ("checks", CHECKS)):
        text = expanded("".join(STEPS.get(line, line) + "\n" for line, _ in stream)).encode()
        status, out, err = seen("follow", text.decode())
        found, rest = followed.answers_in(out)
        yield "as many answers as %s" % name, (status, err, rest, len(found)) == (0, b"", b"", len(stream))
        for (line, wanted), given in zip(stream, found):
            yield "of %s, line %s: %r" % (name, line, given), given == expanded(wanted + "\n").encode()
        yield "%s, and as tests/followed.py has it: %s" % (name, followed.wrong(text, out)), followed.wrong(text, out) is None


# rounds of shares

OF_1, OF_2, OF_ANY = ({"at": at, "round": share} for at, share in ((1, {"writers": [1]}), (2, {"writers": [2]}), (1, {"each": 1})))


def equals(slots, machines=3, tasks=10):
    """A stream of one job, and of equal machines and tasks, of which the first half is written by 1, and the rest by 2."""
    register = {"version": 1, "writer": 1, "withdrawn": False}
    yield {"coordinators": [1, 2]}
    yield {"at": 1, "tell": {"job": {"id": drawn.unique(1), **register, "wait": 5000, "preempt": 8000}}}
    yield from ({"at": 1, "tell": {"machine": {"id": drawn.unique(10 + place), "incarnation": 1, "version": 1, "writer": 1, "up": True,
                                               "slots": slots, "nic": 1000}}} for place in range(machines))
    yield from ({"at": 1, "tell": {"spec": {"id": drawn.unique(17 + place), **register, "writer": 1 + (2 * place >= tasks), "job": drawn.unique(1),
                                            "request": 100}}} for place in range(tasks))


def exchanged(name):
    """Each of both coordinators takes in all that the other knows."""
    for at in 1, 2:
        cut = "%s by %d" % (name, at)
        yield from ({"at": at, "cut": {"name": cut}}, {"at": 3 - at, "deliver": cut})


def told_in(seen, stream):
    """The texts of the answers to the lines, each without its end, if all are accepted and as tests/followed.py has them."""
    text = "".join(json.dumps(line) + "\n" for line in stream)
    status, out, err = seen("follow", text)
    answers, _ = followed.answers_in(out)
    fine = (status, err, followed.wrong(text.encode(), out)) == (0, b"", None) and all(answer.endswith(b"ok\n") for answer in answers)
    return [answer.decode()[:-3].splitlines() for answer in answers] if fine else [[]] * len(list(stream))


def spread(seen):
    """With one task each in a round, ten tasks come to 4, 3 and 3 on three machines, in at most ten rounds. Without, all come at once."""
    *whole, listed = told_in(seen, [*equals(10), {"at": 1, "round": {}}, {"at": 1, "ask": "list", "of": "machines"}])
    yield "a whole round places ten tasks", sum(held_on(listed)) == 10 == len(whole[-1])
    for name, slots, least in ("ten slots", 10, 1), ("four slots, so that a plan needs all three", 4, 3):
        *found, listed = told_in(seen, [*equals(slots), *[OF_ANY] * 12, {"at": 1, "ask": "list", "of": "machines"}])
        placed = found[-12:]
        yield "%s: the first round has %d" % (name, len(placed[0])), least <= len(placed[0]) <= 3
        yield "%s: not two on a machine" % name, all(len({line.split()[2] for line in lines}) == len(lines) for lines in placed)
        yield "%s: a round places as long as a task waits" % name, [bool(lines) for lines in placed] == sorted(map(bool, placed), reverse=True)
        yield "%s: all are accepted" % name, all(line.endswith(" accepted") for lines in placed for line in lines) and sum(map(len, placed)) == 10
        yield "%s: %s tasks on the machines" % (name, held_on(listed)), sorted(held_on(listed)) == [3, 3, 4]


def held_on(listed):
    """How many tasks each of the machines that are listed holds."""
    return [int(line.split()[8]) for line in listed]


def divided(seen):
    """Two coordinators that know the same start no task twice if each has rounds of its own tasks, and start each twice without."""
    last = [*exchanged("done"), {"at": 1, "ask": "size"}, {"at": 2, "ask": "winners"}, {"ask": "agree"}]
    for name, rounds, twice in ("of its own", [OF_1, OF_2], 0), ("of all", [{"at": at, "round": True} for at in (1, 2)], 10):
        sizes, won, same = told_in(seen, [*equals(10), *exchanged("told"), *rounds, *last])[-3:]
        yield "rounds %s: %d of ten tasks are started twice" % (name, twice), "proposals %d" % (10 + twice) in sizes and same == ["same"]
        writers = [1] * 5 + [2] * 5 if not twice else [1] * 10
        yield "rounds %s: who started each task" % name, [int(line.split()[2]) for line in won] == writers
        yield "rounds %s: all run" % name, len(won) == 10 and all(line.endswith(" held") for line in won)


# drawn lives

LIVES, LIFE = 16, 40
# lines that lives have to come to, without their ids and numbers
SHAPES = {
    "job ID N N false N N", "job ID N N true N N", "machine ID N N N open N N N N N", "machine ID N N N open N N N N -",
    "machine ID N N N closed N N N N -", "machine ID N - - closed - - N N -", "task ID N pending N N ID N waiting",
    "task ID N running N N ID N held ID", "task ID N running N N ID N over", "task ID N done N N ID N over",
    "task ID N running - - - - over", "next N", "refusal 14", "refusal 15"}


def at_most(chance, op):
    """An operation of a life, now and then of the greatest version or attempt."""
    (kind, fields), = op.items()
    field, most = ("attempt", MOST_ATTEMPT) if kind == "progress" else ("version", MOST_VERSION)
    return {kind: {**fields, field: most}} if field in fields and chance.random() < 0.03 else op


def asked_of(chance, at, whole):
    """All lists of a coordinator, its size, and what its next operations are: of all ids of a life, or of three."""
    yield {"at": at, "ask": "size"}
    yield from ({"at": at, "ask": "list", **of} for of in ({}, *({"of": kind} for kind in reference.LISTED)))
    subjects = [{"job": drawn.unique(job)} for job in range(1, 5)] + [{"task": drawn.unique(task)} for task in range(20, 31)]
    subjects += [{"machine": drawn.unique(machine), "incarnation": incarnation} for machine in range(11, 16) for incarnation in range(5)]
    yield from ({"at": at, "ask": "next", **subject} for subject in (subjects if whole else chance.sample(subjects, 3)))


def life(seed):
    """The lines of a life of two coordinators, which are told operations, take in packets, trim, and have rounds: behind each line all lists and
    sizes are asked for, and behind the last the next of all."""
    chance, other = random.Random("listed %d" % seed), random.Random("sized %d" % seed)
    yield {"coordinators": [1, 2]}
    for place, op in enumerate(drawn.Lives(chance).operations(LIFE)):
        at = chance.choice((1, 2))
        steps = [{"at": at, "tell": at_most(chance, op)}]
        if "propose" in op and other.random() < 0.3:
            steps.append({"at": at, "tell": {"progress": {**{field: op["propose"][field] for field in ("id", "attempt")}, "phase": "running"}}})
        if chance.random() < 0.2:
            steps += [{"at": at, "cut": {"name": str(place)}}, {"at": 3 - at, "deliver": str(place)}]
        if chance.random() < 0.1:
            steps.append(chance.choice(({"at": at, "round": drawn.share(other)}, {"renew": True})))
        if other.random() < 0.05:
            steps.append({"at": at, "trim": 1})
        for step in steps:
            yield step
            yield from asked_of(chance, step.get("at", at), False)
    yield from (line for at in (1, 2) for line in asked_of(chance, at, True))


def checked_life(seed):
    """The text of these lines, of which half, but for questions of lists and sizes, are checked before."""
    chance = random.Random("checked %d" % seed)
    text = "".join(json.dumps(line) + "\n" for line in life(seed)).encode()
    return followed.with_checks(text, lambda line: not re.search(b'"(list|size)"', line) and chance.random() < 0.5)


def lives(seen):
    """Lists and sizes behind each line of drawn lives, and next versions and attempts, are what is worked out."""
    shapes, sizes = set(), set()
    for seed in range(LIVES):
        text = checked_life(seed)
        status, out, err = seen("follow", text.decode())
        why = followed.wrong(text, out)
        yield "life %d: %s" % (seed, why), (status, err, why) == (0, b"", None)
        shapes |= set(map(shape, out.decode().splitlines()))
        sizes |= set(re.findall(r"^([a-z]+) [1-9][0-9]*$", out.decode(), re.MULTILINE))
    yield "what lives come to, but for %s" % (SHAPES - shapes or "nothing"), SHAPES <= shapes
    yield "sizes that lives come to, but for %s" % (set(SIZED) - sizes or "nothing"), set(SIZED) <= sizes


def shape(line):
    """A line without its ids and numbers, but for that of a refusal."""
    return line if line.startswith("refus") else re.sub(r"\b[0-9]+\b", "N", re.sub(r"\S{8}(-\S{4}){3}-\S{12}", "ID", line))


def scripts(seen):
    """What `list` prints of scripts of several coordinators."""
    for seed, draw in itertools.product(range(12), (drawn.gossip, drawn.contended, drawn.corners, drawn.shared)):
        text = draw(seed)
        for at in json.loads(text)["coordinators"]:
            words = "list --at %d" % at
            wanted = [answer(*each) for each in reference.answers(words.split(), text)]
            yield "%s of %s %d" % (words, draw.__name__, seed), seen(words, text) in wanted


def sizes(seen):
    """A packet of all that is known after a held task's four operations has two digits for each of its bytes, and a line feed."""
    status, out, _ = seen("pack a", script("J A T OnA CutA"))
    yield "a packet has its size", (status, len(out)) == (0, 441)


def costs(seen):
    """A task is placed or left if both cost the same."""
    status, out, _ = seen("solve", script("JWait100 A T"))
    yield "equal costs are solved", status == 0 and out.startswith(b"s 100\n")


def orders(seen):
    """Three coordinators each tell something, cut four packets, and take them all in, in every order: all have one network."""
    for order in itertools.permutations("ABCD"):
        given = ["Get%s 2:Get%s 3:Get%s" % (packet, packet, packet) for packet in order]
        text = script("J 2:A 3:T OnA CutA 2:CutB 3:CutC CutD " + " ".join(given), "1,2,3")
        yield "%s%s%s%s: same" % order, seen("agree", text)[:2] == (0, b"same\n")
        for at in "1", "2", "3":
            yield "%s%s%s%s" % order + ": graph at " + at, seen("graph --at " + at, text)[1] == expanded(HELD).encode()


def reads(narrowed):
    """Input comes a few bytes at a time, and at its end reading ends or fails."""
    for at_a_time in 1, 7, 65536:
        yield "input by %d bytes" % at_a_time, narrowed("graph", "J A T", reads=at_a_time, fails=0) == answer(0, WAITING, "")
        fails = narrowed("graph", "J A T", reads=at_a_time, fails=1)
        yield "input by %d bytes that fails" % at_a_time, fails == answer(3, "", "firmament: refusal 16\n")


def writes(narrowed):
    for words, steps, room, at_a_time, *wanted in WRITES:
        done = narrowed(words, steps, writes=at_a_time, room=room)
        yield "%s: %s, by %d bytes, with room for %d" % (words, steps, at_a_time, room), done == answer(*wanted)


def all_tests(seen):
    """Each test by name. `seen(words, text, **how)` is the status of a run and what it wrote."""
    for test in runs, lines, spread, divided, lives, scripts, sizes, costs, orders:
        yield from test(seen)
    with tempfile.TemporaryDirectory() as folder:
        library = refusing.library(folder, "narrow")

        def narrowed(words, steps, **narrow):
            env = {name.upper(): str(number) for name, number in narrow.items()}
            return seen(words, script(steps), env={"LD_PRELOAD": library, **env})
        yield from reads(narrowed)
        yield from writes(narrowed)
