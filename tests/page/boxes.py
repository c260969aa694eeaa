"""What the page says that a box would do: generated boxes and the jobs of tests/jobs, typed in, against what the reference model expects of `relay`."""
import facts
import model
from network_answers import counted
from trying import TOP

import digits

KINDS = ('source_pass', 'source_reject', 'destination_pass', 'destination_reject')
FORM = ('refused 50\n', 'refused 51\n', 'refused 52\n', 'refused 53\n')  # refusals of a job's form, which the page does not have


def ranges(values):
    """A list as it is typed; a range of one address is written in both ways."""
    return ', '.join(f'{low}-{high}' if low != high or i % 4 else str(low) for i, (low, high) in enumerate(zip(values[::2], values[1::2])))


def settings_of(job):
    """A job's settings as they are typed; None where the job is not whole, which only a job can be."""
    try:
        given, end = typed(job)
    except IndexError:
        return None
    return given if len(job) == end else None


def typed(job):
    given = {'own': str(int.from_bytes(job[:2], 'big')), 'echo': bool(job[2] & 1), 'repeating': bool(job[2] & 2)}
    at = 3
    for place, kind in enumerate(KINDS):
        given[f'{kind}_first'] = ranges([int.from_bytes(job[at + 1 + 2 * i:at + 3 + 2 * i], 'big') for i in range(2 * job[at])])
        given[f'{kind}_second'] = ''
        given[kind] = '1' if job[2] & 4 << place else '0'
        at += 1 + 4 * job[at]
    return {**given, 'batch': job[at + 2:].hex(' ')}, at + 2 + (job[at] << 8 | job[at + 1])


def jobs(tally, b):
    for file in sorted((TOP / 'tests/jobs').glob('*.hex')):
        expected = file.with_suffix('.expected').read_text()
        settings = settings_of(digits.bytes_of(file.read_text()))
        if settings is None or expected in FORM:
            continue
        found = b.run(facts.BOX, settings)
        tally.same(f'{file.name}: taken', found['fault'], '')
        tally.same(file.name, b.wait(facts.COPIED, 'box-copy'), expected)


LISTS = [f'{which} {kind.replace("_", " ")} list' for kind in KINDS for which in ('first', 'second')]
BEGUN, ROWS = 16, 400  # bytes of a PDU and rows that are shown


def begun(word):
    content = model.bytes_of(word)
    return content[:BEGUN].hex(' ').upper() + (' ..' if len(content) > BEGUN else '')


def walked(own, words):
    """The lines of `relay`, the headline and the rows of the table for the words of a walk."""
    lines, rows, end = [f'relay {own}'], [], 0
    while words:
        offset, delivery, repeat, payload, repeated, sender, taken, *words = words
        end = int(offset) + int(taken)
        lines.append(f'{len(rows) + 1} {offset} {delivery} {repeat} {repeated.upper()} {sender}')
        got = f'delivered: {begun(payload) or "an empty payload"}' if delivery == '0' else delivery
        rows.append([f'PDU {len(rows) + 1}', offset, '–' if sender == '-' else sender, got, f'repeated: {begun(repeated)}' if repeat == '0' else repeat])
    delivered, sent = (sum(row[at].startswith(word) for row in rows) for at, word in ((3, 'delivered'), (4, 'repeated')))
    return [*lines, f'end {len(rows)} {end}', ''], f'{counted(len(rows), "PDU")}: {delivered} delivered, {sent} repeated. proved', rows


def plain(row):
    """A row of the table, with numbers without their meaning."""
    return [*row[:3], *(words if words.startswith(('delivered', 'repeated')) else words.split(':')[0] for words in row[3:])]


def generated(tally, b, seed, count):
    for (own, edition, echo, repeating, *choices, eight, batch), (number, *words) in model.asked('box', seed, count):
        given = {'own': own, 'edition': edition, 'echo': echo == '1', 'repeating': repeating == '1', 'batch': batch.strip('.'), **dict(zip(KINDS, choices))}
        for place, values in enumerate(map(model.values, eight.split(';'))):
            given[f'{KINDS[place // 2]}_{("first", "second")[place % 2]}'] = ranges(values)
        found = b.run(facts.BOX, given)
        lines = b.wait(facts.COPIED, 'box-copy').split('\n')
        if number == '0':
            wanted_lines, headline, rows = walked(own, words)
            shown, wanted = (lines, found['headline'], [plain(row) for row in found['rows']]), (wanted_lines, headline, rows[:ROWS])
        else:
            whose = f'; it is the {LISTS[int(words[0])]}' if words else ''
            shown = lines, found['headline'].startswith(f'Refused, {number}: '), found['headline'].endswith(whose)
            wanted = [f'refused {number}', ''], True, True
        tally.same(f'a box, {given}', shown, wanted)


BARE = {'own': '2000', 'echo': True, 'repeating': True, 'batch': '0200100003E800', **{kind: '0' for kind in KINDS},
        **{f'{kind}_{which}': '' for kind in KINDS for which in ('first', 'second')}}


def lists(tally, b):
    """Eight lists of which four are chosen, at once too; faults of lists; wrong input."""
    two = {**BARE, 'source_pass_first': '1001-1999', 'source_pass_second': '1000', 'destination_pass_first': '0-65535', 'destination_pass_second': '0-65535'}
    for choice, line in (('all-1', '1 0 31 31 - 1000'), ('all-2', '1 0 0 0 0200000003E80107D0 1000'), ('all-0', '1 0 0 0 0200000003E80107D0 1000')):
        b.run(facts.BOX, two)
        b.run('document.getElementById(arguments[0]).click()', choice)
        tally.same(f'lists, {choice}', b.run("return document.getElementById('relay-lines').textContent").split('\n')[1], line)
    found = b.run(facts.BOX, {**BARE, 'destination_reject_second': '5-4'})
    tally.same('a list with a fault', (found['lines'], 'the second destination reject list' in found['headline']), ('refused 20', True))
    found = b.run(facts.BOX, {**BARE, 'source_reject_first': ', '.join(map(str, range(65)))})
    tally.same('a list that is too long', found['lines'], 'refused 22')
    good = b.run(facts.BOX, BARE)['lines']
    wrong = (('own', '65536', 'the own address'), ('source_pass_first', '12-', '“12-” is not an address'), ('batch', '0', 'a byte has two'))
    for field, value, words in wrong:
        found = b.run(facts.BOX, {**BARE, field: value})
        tally.same(f'{field} {value}: said', words.lower() in found['fault'].lower(), True)
        marked = b.run('return document.getElementById(arguments[0]).getAttribute("aria-invalid")', field)
        tally.same(f'{field} {value}: marked, and the last good lines stay', (found['lines'], marked), (good, 'true'))
    too_long = b.run(facts.BOX, {**BARE, 'batch': '00' * 16386})
    tally.same('a batch above the limit', too_long['lines'], 'refused 54')
