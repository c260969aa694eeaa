"""Every answer of the page about generated networks, against the reference model."""
import random
import re

import facts
import model

RATE, SLOT = 4800, 0.5  # what stands in the page's two fields
QUICK, TOO_LARGE = '100,000', 'more than 18,446,744,073,709,551,615, which is as far as is counted'
LISTED, NAMED, GROUPS = 8, 10, 60  # addresses of a list in the headline and of one that is lost, lines of failures


def counted(number, what):
    return f'{number:,} {what}{"" if number == 1 else "s"}'


def listed(addresses, most):
    more = f' and {len(addresses) - most:,} more' if len(addresses) > most else ''
    return ', '.join(map(str, addresses[:most])) + more


def known(number):
    """A count, or that it was stopped."""
    return f'≥ {QUICK}' if number is None else f'{number:,}'


def bound(number, too_large):
    return too_large if number is None else f'{number:,}'


def heard(count, others):
    return 'all' if count == others else f'{count:,} of {others:,}'


def headline(net):
    origin, reached = net.nodes[0][0], net.hops[net.hop][0]
    every = 'The other node hears' if net.others == 1 else f'All {net.others:,} others hear'
    who = every if reached == net.others else f'{reached:,} of {net.others:,} {"hears" if reached == 1 else "hear"}'
    yield f'{who} a report from {origin}.' if net.others else 'There is no other node.'
    if missing := [node for node, _, is_delivered, *_ in net.nodes[1:] if not is_delivered]:
        yield f'Not reached: {listed(missing, LISTED)}.'
    unlinked = sum(length is None for _, length, *_ in net.nodes)
    if net.others:
        yield (f'No hop limit reaches {counted(unlinked, "node")}: no chain of hearings leads there.' if net.least is None else
               'Only hop limit 7, which is never lowered, reaches all.' if net.least == 7 else f'Hop limit {net.least} is the least that reaches all.')
    own = [line[0] for line in net.lines]
    if alone := [node for node, *_ in net.nodes if node not in own]:
        yield f'Without a line of {"its" if len(alone) == 1 else "their"} own (a wrong digit?): {listed(alone, LISTED)}.'


def node_rows(net, names):
    for node, length, is_delivered, sent, size in sorted(net.nodes, key=lambda row: (255 if row[1] is None else row[1], row[0])):
        words = 'origin' if length == 0 else 'no chain' if length is None else f'{length}' if is_delivered else f'{length}: too far'
        yield [str(node), names.get(node, ''), words, f'{sent:,}', f'{size:,}']


def originator_rows(net, names):
    sent = [row[3] for row in net.originators]
    for node, reached, least, count in sorted(net.originators, key=lambda row: (-row[3], row[0])):
        most = ' most' if count == max(sent) > min(sent) else ''
        yield [str(node), names.get(node, ''), heard(reached, net.others), 'none' if least is None else str(least), f'{count:,}{most}']


def failure_lines(net):
    """Nodes whose failure loses the same others stand together, those that lose most first."""
    groups = {}
    for node, cut, far in sorted(net.failures, key=lambda row: (-len(row[1]), -len(row[2]))):
        groups.setdefault((tuple(cut), tuple(far)), []).append(str(node))
    for (cut, far), nodes in list(groups.items())[:GROUPS]:
        said = [words + listed(lost, NAMED) for words, lost in (('no chain leads to ', cut), ('out of reach at this hop limit: ', far)) if lost]
        yield f'Without {" or ".join(nodes)}: {"; ".join(said)}.'
    if len(groups) > GROUPS:
        yield f'and {counted(len(groups) - GROUPS, "more line")}'
    if not groups:
        yield 'No single node’s failure cuts off another, or puts it out of reach at this hop limit.'


def command(net):
    """What a command costs here and in the worst network, one sending of it and of its acknowledgement, and the formula."""
    here, worst, there, answer = net.command
    cost = f'more than {QUICK}' if here is None else f'{here:,}'
    return [cost, bound(worst, TOO_LARGE), known(there), known(answer)], f'{counted(net.tries + 1, "sending")} × {known(there)} × (1 + {known(answer)})'


def drawn_nodes(net, names):
    for node, length, is_delivered, *_ in net.nodes:
        kind = 'originator' if length == 0 else 'unlinked' if length is None else 'delivered' if is_delivered else 'missed'
        lists, far = ' if its lists let it in' if node in net.mute else '', counted(length or 0, 'hearing')
        words = {'originator': 'the originator', 'delivered': f'hears it after {far}{lists}', 'missed': f'out of reach, {far} away',
                 'unlinked': 'no chain of hearings leads there'}[kind]
        title = f'{node}{" " if names.get(node) else ""}{names.get(node, "")}: {words}{"; does not repeat" if node in net.mute else ""}'
        yield [str(node), kind, 'origin' if length == 0 else '–' if length is None else str(length), 'rect' if node in net.mute else 'circle', title]


def drawn_links(net):
    """Each two of which one hears the other, and whether that is a step of a shortest chain."""
    hearings = {(line[0], hearer) for line in net.lines for hearer in line[1:] if hearer != line[0]}
    chain, origin = {node: (length, is_delivered) for node, length, is_delivered, *_ in net.nodes}, net.nodes[0][0]

    def is_step(sender, hearer):
        (length, _), (longer, is_delivered) = chain[sender], chain[hearer]
        return length is not None and longer == length + 1 and bool(is_delivered) and (sender == origin or sender not in net.mute)

    return sorted([min(pair), max(pair), any(is_step(*each) for each in (pair, pair[::-1]) if each in hearings)] for pair in hearings
                  if pair[::-1] not in hearings or pair[0] < pair[1])


def compared(tally, b, net, text, names):
    given = {'size': net.size, 'tries': net.tries, 'back': net.back, **({'command-to': net.to} if net.to is not None else {})}
    found = b.wait(facts.NETWORK, text, given)

    def same(what, shown, wanted):
        tally.same(f'{text}\n{given}\n{what}', shown, wanted)

    same('no fault', found['fault'], '')
    same('the headline', found['headline'], list(headline(net)))
    same('the figures', found['figures'], [f'{net.sent:,}', bound(net.hops[net.hop][2], TOO_LARGE)])
    same('each hop limit', found['hops'], [[str(hop), heard(reached, net.others), known(sent), bound(worst, '> 1.8 × 10¹⁹')]
                                           for hop, (reached, sent, worst) in enumerate(net.hops)])
    same('each node', found['nodes'], list(node_rows(net, names)))
    same('every originator', found['everyone'], list(originator_rows(net, names)))
    same('failures', found['failures'], list(failure_lines(net)))
    same('bytes', found['air'][:2], [f'{net.bytes:,}', bound(net.worst_bytes, TOO_LARGE)])
    seconds = [float(re.match(r'[\d.]+', words.replace(',', ''))[0]) for words in found['air'][2:]]
    same('seconds', [abs(one - other) <= (0.01 if other < 9 else 0.51) for one, other in zip(seconds, (net.bytes * 8 / RATE, net.sent * SLOT))], [True, True])
    same('a command', (found['command'], found['formula']), (None, '') if net.command is None else command(net))
    same('the nodes drawn', found['drawn'], list(drawn_nodes(net, names)))
    same('the lines drawn', found['links'], drawn_links(net))


def generated(tally, b, seed, count):
    rng = random.Random(seed)
    for asked, answered in model.asked('network', seed, count):
        net = model.Network(asked, answered)
        compared(tally, b, net, *net.text(rng))
