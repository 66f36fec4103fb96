"""Texts that spell a script and texts that do not, with what the program answers to each, for tests/run: what is wanted follows from
docs/formats.md by hand. Each reading fault is refusal 16, at the first step that is none, or without a step if the text is no
script as a whole.
"""

# one operation of each kind, with a number of its own in each field that takes one
JOB = '{"job":{"id":"00000000-0000-0000-0000-000000000001","version":2,"writer":3,"withdrawn":true,"wait":4,"preempt":5}}'
SPEC = (
    '{"spec":{"id":"00000000-0000-0000-0000-000000000006","version":7,"writer":8,"withdrawn":false,'
    '"job":"00000000-0000-0000-0000-000000000009","request":10}}'
)
PROGRESS = '{"progress":{"id":"00000000-0000-0000-0000-00000000000b","attempt":12,"phase":"running"}}'
MACHINE = (
    '{"machine":{"id":"00000000-0000-0000-0000-00000000000d","incarnation":14,"version":15,"writer":16,"up":true,"slots":17,"nic":18}}'
)
REPORT = '{"report":{"id":"00000000-0000-0000-0000-000000000013","incarnation":20,"number":21,"used":22}}'
PROPOSE = (
    '{"propose":{"id":"00000000-0000-0000-0000-000000000017","attempt":24,"coordinator":25,'
    '"machine":"00000000-0000-0000-0000-00000000001a","incarnation":27}}'
)

# texts that are no script as a whole
WHOLES = [
    '',
    ' ',
    'x',
    '{',
    'null',
    '[]',
    '{}',
    '{"coordinators":[1]}',
    '{"steps":[]}',
    '{"coordinators":[1],"steps":[]',
    '{"coordinators":[1],"steps":[]}}',
    '{"coordinators":[1],"steps":[]} x',
    '{"coordinators":[1],"steps":[]}{}',
    '{"coordinators":[1],"steps":[],}',
    "{'coordinators':[1],'steps':[]}",
    '{"coordinators":[1],"steps":{}}',
    '{"coordinators":[1],"steps":null}',
    '{"coordinators":[1],"steps":"[]"}',
    '{"coordinators":1,"steps":[]}',
    '{"coordinators":null,"steps":[]}',
    '{"coordinators":{"1":1},"steps":[]}',
    '{"coordinators":[],"steps":[]}',
    '{"coordinators":[0],"steps":[]}',
    '{"coordinators":[65],"steps":[]}',
    '{"coordinators":[-1],"steps":[]}',
    '{"coordinators":[1.0],"steps":[]}',
    '{"coordinators":["1"],"steps":[]}',
    '{"coordinators":[[1]],"steps":[]}',
    '{"coordinators":[1,0],"steps":[]}',
    '{"coordinators":[1,65],"steps":[]}',
    '{"coordinators":[1,257],"steps":[]}',
    '{"coordinators":[1,null],"steps":[]}',
    '{"coordinators":[1,1],"steps":[]}',
    '{"coordinators":[3,2,1,2],"steps":[]}',
    '{"coordinators":[1],"coordinators":[0],"steps":[]}',
    '{"coordinators":[0],"steps":[1]}',
  '[' * 200,
]
# items of the list of steps that are no step; `TOLD` stands for an operation
STEPS = [
    '1',
    'null',
    '[]',
    '{}',
    '{"at":1}',
    '{"tell":TOLD}',
    '{"at":1,"told":TOLD}',
    '{"at":1,"tell":TOLD,"by":0}',
    '{"at":1,"tell":TOLD,"cut":{"name":"a"}}',
    '{"at":256,"tell":TOLD}',
    '{"at":-1,"tell":TOLD}',
    '{"at":1.0,"tell":TOLD}',
    '{"at":"1","tell":TOLD}',
    '{"at":null,"tell":TOLD}',
    '{"at":true,"tell":TOLD}',
    '{"at":1,"tell":null}',
    '{"at":1,"tell":1}',
    '{"at":1,"tell":[]}',
    '{"at":1,"tell":[TOLD]}',
    '{"at":1,"tell":{}}',
    '{"at":1,"tell":{"task":{}}}',
    '{"at":1,"tell":{"progress":[]}}',
    '{"at":1,"tell":{"progress":null}}',
    '{"at":1,"tell":{"progress":TOLD}}',
    '{"at":1,"tell":{"job":null,"spec":null}}',
    '{"at":1,"cut":null}',
    '{"at":1,"cut":"a"}',
    '{"at":1,"cut":["a"]}',
    '{"at":1,"cut":{}}',
    '{"at":1,"cut":{"from":0,"to":1}}',
    '{"at":1,"cut":{"name":null}}',
    '{"at":1,"cut":{"name":1}}',
    '{"at":1,"cut":{"name":["a"]}}',
    '{"at":1,"cut":{"name":"a","from":0}}',
    '{"at":1,"cut":{"name":"a","to":1}}',
    '{"at":1,"cut":{"name":"a","from":null,"to":null}}',
    '{"at":1,"cut":{"name":"a","from":0,"to":null}}',
    '{"at":1,"cut":{"name":"a","from":"0","to":1}}',
    '{"at":1,"cut":{"name":"a","from":0,"to":"1"}}',
    '{"at":1,"cut":{"name":"a","from":-1,"to":1}}',
    '{"at":1,"cut":{"name":"a","from":0,"to":1.0}}',
    '{"at":1,"cut":{"name":"a","from":0,"to":18446744073709551616}}',
    '{"at":1,"deliver":null}',
    '{"at":1,"deliver":0}',
    '{"at":1,"deliver":["a"]}',
    '{"at":1,"deliver":{"name":"a"}}',
    '{"at":1,"trim":null}',
    '{"at":1,"trim":-1}',
    '{"at":1,"trim":1.0}',
    '{"at":1,"trim":"1"}',
    '{"at":1,"trim":18446744073709551616}',
    '{"at":1,"relieve":null}',
    '{"at":1,"relieve":false}',
    '{"at":1,"relieve":1}',
    '{"at":1,"relieve":"true"}',
    '{"at":1,"relieve":{}}',
    '{"at":1,"round":null}',
    '{"at":1,"round":false}',
    '{"at":1,"round":1}',
    '{"at":1,"round":"true"}',
    '{"at":1,"round":[]}',
    '{"at":1,"round":[1]}',
    '{"at":1,"round":{"more":1}}',
    '{"at":1,"round":{"writers":[]}}',
    '{"at":1,"round":{"writers":[1,1]}}',
    '{"at":1,"round":{"writers":[0]}}',
    '{"at":1,"round":{"writers":[65]}}',
    '{"at":1,"round":{"writers":[1.0]}}',
    '{"at":1,"round":{"writers":["1"]}}',
    '{"at":1,"round":{"writers":1}}',
    '{"at":1,"round":{"writers":null}}',
    '{"at":1,"round":{"each":0}}',
    '{"at":1,"round":{"each":4294967296}}',
    '{"at":1,"round":{"each":-1}}',
    '{"at":1,"round":{"each":1.0}}',
    '{"at":1,"round":{"each":null}}',
    '{"at":1,"round":{"writers":[1],"each":1,"more":1}}',
    '{"at":1,"round":{},"more":1}',
    '{"round":{}}',
    '{"at":1,"cut":{"name":"a"},"deliver":"a"}',
    '{"at":1,"trim":0,"round":true}',
    '{"at":1,"view":true}',
    '{"cut":{"name":"a"}}',
    '{"round":true}',
    '{"cut":{"name":"a"},"tell":TOLD}',
    '{"cut":{"name":"a"},"by":1}',
    '{"deliver":"a","by":1}',
    '{"trim":0,"round":true}',
    '{"at":256,"round":true}',
    '{"at":null,"cut":{"name":"a"}}',
]
# steps of which a later one is no step, and its number behind the good step before them
LATER = [
    ('{"at":1,"cut":{"name":"a"}},{"at":1,"cut":{"name":"a"}}', 3),
    ('{"at":1,"cut":{"name":"a","from":0,"to":1}},{"at":2,"cut":{"name":"a","from":1,"to":2}}', 3),
    ('{"at":1,"cut":{"name":"a"}},{"at":2,"cut":{"name":"b"}},{"at":3,"deliver":"a"},{"at":3,"cut":{"name":"a"}}', 5),
    ('{"at":1,"cut":{"name":"a"}},{"at":2,"cut":{"name":"b"}},{"at":3,"cut":{"name":"b"}},{"at":3,"cut":{"name":"a"}}', 4),
    ('{"at":1,"cut":{"name":"a"}},null,{"at":2,"cut":{"name":"a"}}', 3),
    ('{"at":1,"round":true},{"at":1,"trim":0},{"at":1,"round":false}', 4),
    ('{"at":1,"round":{}},{"at":1,"round":{"writers":[64,1],"each":4294967295}},{"at":1,"round":{"each":0}}', 4),
]
# operations that are none once the second text stands for the first
FIELDS = [
    (JOB, '"id":"00000000-0000-0000-0000-000000000001",', ''),
    (JOB, '"version":2,', ''),
    (JOB, '"writer":3,', ''),
    (JOB, '"withdrawn":true,', ''),
    (JOB, '"wait":4,', ''),
    (JOB, ',"preempt":5', ''),
    (SPEC, '"id":"00000000-0000-0000-0000-000000000006",', ''),
    (SPEC, '"version":7,', ''),
    (SPEC, '"writer":8,', ''),
    (SPEC, '"withdrawn":false,', ''),
    (SPEC, '"job":"00000000-0000-0000-0000-000000000009",', ''),
    (SPEC, ',"request":10', ''),
    (PROGRESS, '"id":"00000000-0000-0000-0000-00000000000b",', ''),
    (PROGRESS, '"attempt":12,', ''),
    (PROGRESS, ',"phase":"running"', ''),
    (MACHINE, '"id":"00000000-0000-0000-0000-00000000000d",', ''),
    (MACHINE, '"incarnation":14,', ''),
    (MACHINE, '"version":15,', ''),
    (MACHINE, '"writer":16,', ''),
    (MACHINE, '"up":true,', ''),
    (MACHINE, '"slots":17,', ''),
    (MACHINE, ',"nic":18', ''),
    (REPORT, '"id":"00000000-0000-0000-0000-000000000013",', ''),
    (REPORT, '"incarnation":20,', ''),
    (REPORT, '"number":21,', ''),
    (REPORT, ',"used":22', ''),
    (PROPOSE, '"id":"00000000-0000-0000-0000-000000000017",', ''),
    (PROPOSE, '"attempt":24,', ''),
    (PROPOSE, '"coordinator":25,', ''),
    (PROPOSE, '"machine":"00000000-0000-0000-0000-00000000001a",', ''),
    (PROPOSE, ',"incarnation":27', ''),
    (JOB, '"00000000-0000-0000-0000-000000000001"', '"1"'),
    (JOB, '"00000000-0000-0000-0000-000000000001"', '""'),
    (JOB, '"00000000-0000-0000-0000-000000000001"', '1'),
    (JOB, '"00000000-0000-0000-0000-000000000001"', 'null'),
    (JOB, '"00000000-0000-0000-0000-000000000001"', '"00000000-0000-0000-0000-00000000000g"'),
    (JOB, '"00000000-0000-0000-0000-000000000001"', '"00000000-0000-0000-0000-0000000000011"'),
    (JOB, ':2', ':-1'),
    (JOB, ':2', ':18446744073709551616'),
    (JOB, ':2', ':1.5'),
    (JOB, ':2', ':2.0'),
    (JOB, ':2', ':2e0'),
    (JOB, ':2', ':"2"'),
    (JOB, ':2', ':null'),
    (JOB, ':3', ':256'),
    (JOB, ':3', ':-3'),
    (JOB, ':true', ':1'),
    (JOB, ':true', ':"true"'),
    (JOB, ':true', ':null'),
    (JOB, ':4', ':-1'),
    (JOB, ':4', ':4294967296'),
    (JOB, ':4', ':0.5'),
    (JOB, ':4', ':true'),
    (JOB, ':5', ':4294967296'),
    (SPEC, '"00000000-0000-0000-0000-000000000006"', '"t"'),
    (SPEC, ':7', ':18446744073709551616'),
    (SPEC, ':8', ':256'),
    (SPEC, ':false', ':0'),
    (SPEC, '"00000000-0000-0000-0000-000000000009"', '"j"'),
    (SPEC, '"00000000-0000-0000-0000-000000000009"', '9'),
    (SPEC, ':10', ':4294967296'),
    (SPEC, ':10', ':-10'),
    (PROGRESS, '"00000000-0000-0000-0000-00000000000b"', '"t"'),
    (PROGRESS, ':12', ':4294967296'),
    (PROGRESS, ':12', ':-12'),
    (PROGRESS, '"running"', '"Running"'),
    (PROGRESS, '"running"', '"run"'),
    (PROGRESS, '"running"', '""'),
    (PROGRESS, '"running"', '1'),
    (PROGRESS, '"running"', 'null'),
    (MACHINE, '"00000000-0000-0000-0000-00000000000d"', '"m"'),
    (MACHINE, ':14', ':18446744073709551616'),
    (MACHINE, ':15', ':18446744073709551616'),
    (MACHINE, ':16', ':256'),
    (MACHINE, ':true', ':"up"'),
    (MACHINE, ':17', ':4294967296'),
    (MACHINE, ':18', ':4294967296'),
    (REPORT, '"00000000-0000-0000-0000-000000000013"', '"m"'),
    (REPORT, ':20', ':18446744073709551616'),
    (REPORT, ':21', ':18446744073709551616'),
    (REPORT, ':22', ':4294967296'),
    (PROPOSE, '"00000000-0000-0000-0000-000000000017"', '"t"'),
    (PROPOSE, ':24', ':4294967296'),
    (PROPOSE, ':25', ':256'),
    (PROPOSE, '"00000000-0000-0000-0000-00000000001a"', '"m"'),
    (PROPOSE, ':27', ':18446744073709551616'),
]
# what `agree` answers to a script of one coordinator, and to one with a field out of its range
SAME = 0, "same\n", ""
OUT_OF_RANGE = 3, "", "firmament: refusal 2 at step 2\n"
# operations that still are some once the second text stands for the first, and what is answered then: a field may fit its type and
# still be out of its range
KEPT = [
    (JOB, '"00000000-0000-0000-0000-000000000001"', '"00000000000000000000000000000001"', SAME),
    (JOB, '"00000000-0000-0000-0000-000000000001"', '"{00000000-0000-0000-0000-00000000ABCD}"', SAME),
    (JOB, '"00000000-0000-0000-0000-000000000001"', '"urn:uuid:00000000-0000-0000-0000-000000000001"', SAME),
    (JOB, ':2', ':18446744073709551615', SAME),
    (JOB, ':3', ':255', OUT_OF_RANGE),
    (JOB, ':4', ':4294967295', OUT_OF_RANGE),
    (JOB, ':5', ':0,"more":[null]', SAME),
    (JOB, ':2', ':null,"version":2', SAME),
    (SPEC, '"writer":8', '"writer" : 8 ', SAME),
    (PROGRESS, ':12', ':4294967295', SAME),
    (REPORT, ':22', ':4294967295', OUT_OF_RANGE),
    (PROPOSE, ':25', ':0', OUT_OF_RANGE),
]
# lists of coordinators with the step of one of them, and what `agree` answers: which of them is the first, and which the other
LISTS = [
    ("1", 1, "same\n"),
    ("64", 64, "same\n"),
    ("3,1,64", 64, "differ 3 64\n"),
    ("3,1,64", 3, "differ 3 1\n"),
    (" 2 , 1 ", 1, "differ 2 1\n"),
    (",".join(map(str, range(1, 65))), 64, "differ 1 64\n"),
]


def told(op, at=1):
    """The step by which the coordinator is told the operation."""
    return '{"at":%d,"tell":%s}' % (at, op)


def script(items):
    """The script of a good step and the items."""
    return '{"coordinators":[1],"steps":[%s,%s]}' % (told(REPORT), items)


def fault(step=0):
    """How the program ends if the text is no script, at this step or as a whole."""
    return 3, "", "firmament: refusal 16%s\n" % (" at step %d" % step if step else "")


def rows():
    """Each text with what `agree` answers to it."""
    for text in WHOLES:
        yield text, fault()
    yield '{"coordinators":[%s],"steps":[]}' % ",".join(map(str, [*range(1, 65), 1])), fault()
    for item in STEPS:
        yield script(item.replace("TOLD", PROGRESS)), fault(2)
    for items, number in LATER:
        yield script(items), fault(number)
    for op, old, new in FIELDS:
        yield script(told(op.replace(old, new, 1))), fault(2)
    for op, old, new, wanted in KEPT:
        yield script(told(op.replace(old, new, 1))), wanted
    for listed, at, wanted in LISTS:
        yield '{"coordinators":[%s],"steps":[%s]}' % (listed, told(JOB, at)), (5 if "differ" in wanted else 0, wanted, "")


def all_tests(seen):
    """`seen` runs the program with words on a text, and answers status, output and error."""
    for text, (status, out, err) in rows():
        yield "agree on " + text, seen("agree", text.encode()) == (status, out.encode(), err.encode())
    yield "agree on a byte that is no UTF-8", seen("agree", b"\xff") == (3, b"", b"firmament: refusal 16\n")
