"""The synchronous run in Python, with the text that it prints: what the program's transcripts are compared with."""
from dataclasses import dataclass
from typing import Callable

NONE = 2**64 - 1


@dataclass
class Program:
    """The functions of a vertex program over states of three numbers."""
    init: Callable
    wake: Callable
    begin: Callable
    edge: Callable
    receive: Callable
    show: Callable
    bid: Callable = lambda s: None
    # whether a vertex runs over its in-list too
    both: bool = False


def least(cost):
    """Levels and least weights, by what an entry adds."""
    def make(source):
        return Program(
            init=lambda v, outs, ins: (0 if v == source else NONE, NONE, 0),
            wake=lambda phase, s: s[0] < s[1],
            begin=lambda phase, s: ((s[0], s[0], 0), s[0]),
            edge=lambda carry, weight: min(carry + cost(weight), NONE),
            receive=lambda s, m: (min(s[0], m), s[1], s[2]),
            show=lambda s: () if s[0] == NONE else (s[0],))
    return make


def rank(cut):
    return Program(
        init=lambda v, outs, ins: (0, 157286, outs),
        wake=lambda phase, s: s[1] >= cut,
        begin=lambda phase, s: ((min(s[0] + s[1], NONE), 0, s[2]), s[1] * 85 // 100 // s[2] if s[2] else 0),
        edge=lambda carry, weight: carry,
        receive=lambda s, m: (s[0], min(s[1] + m, NONE), s[2]),
        show=lambda s: s[:2])


def wcc(_):
    return Program(
        init=lambda v, outs, ins: (v, NONE, 0),
        wake=lambda phase, s: s[0] < s[1],
        begin=lambda phase, s: ((s[0], s[0], s[2]), s[0]),
        edge=lambda carry, weight: carry,
        receive=lambda s, m: (min(s[0], m), s[1], s[2]),
        show=lambda s: s[:1],
        both=True)


def core(_):
    return Program(
        init=lambda v, outs, ins: (outs + ins, 0, 0),
        wake=lambda phase, s: s[1] == 0 and s[0] <= phase,
        begin=lambda phase, s: ((s[0], 1, phase), 1),
        edge=lambda carry, weight: carry,
        receive=lambda s, m: s if s[1] else (max(s[0] - m, 0), s[1], s[2]),
        show=lambda s: s[2:],
        bid=lambda s: None if s[1] else s[0],
        both=True)


PROGRAMS = {'bfs': least(lambda weight: 1), 'sssp': least(lambda weight: weight), 'wcc': wcc, 'core': core, 'rank': rank}


def values(show, states):
    for v, state in enumerate(states):
        yield ' '.join(map(str, (v, *(show(state) or '-'))))


def stand(program, phase, states):
    """The phase in which the next iteration begins, and its active vertices; none where nothing is left to do."""
    while not (active := [v for v, s in enumerate(states) if program.wake(phase, s)]):
        bids = [bid for bid in map(program.bid, states) if bid is not None and bid > phase]
        if not bids:
            break
        phase = min(bids)
    return phase, active


def turned(outs):
    """The in-lists that mirror these out-lists."""
    ins = [[] for _ in outs]
    for source, row in enumerate(outs):
        for target, weight in row:
            ins[target].append((source, weight))
    return ins


class BadEdge(Exception):
    """An entry of a list that leads to no vertex."""

    def __init__(self, v, direction, place, target):
        super().__init__(f'vertex {v} {direction} entry {place} target {target}')


def needed(program, active, outs, ins):
    """The entries that these vertices run over: of which vertex and direction, at which place, and the target and the weight."""
    for v in active:
        for direction, row in (('out', outs[v]), ('in', ins[v]))[:1 + program.both]:
            for place, found in enumerate(row):
                yield v, direction, place, *found


def lines(name, argument, n, outs, ins_count, most=2**32 - 1, each=False, quiet=False, ins=None):
    """The lines of a run of the program on the graph whose out-lists are these pairs of target and weight, and whose in-lists mirror
    them where they aren't given. The first entry that is run over and leads to no vertex ends it."""
    program = PROGRAMS[name](argument)
    ins = turned(outs) if ins is None else ins
    states = [program.init(v, len(outs[v]), len(ins[v])) for v in range(n)]
    yield f'program {name} vertices {n} out {sum(map(len, outs))} in {ins_count}'
    number = 0
    phase, active = stand(program, 0, states)
    while active and number < most:
        runs = {v: program.begin(phase, states[v]) for v in active}
        mail = []
        for v, direction, place, target, weight in needed(program, active, outs, ins):
            if target >= n:
                raise BadEdge(v, direction, place, target)
            mail.append((target, program.edge(runs[v][1], weight)))
        for v in active:
            states[v] = runs[v][0]
        for target, message in mail:
            states[target] = program.receive(states[target], message)
        yield f'iteration {number} phase {phase} active {len(active)} messages {len(mail)}'
        if each:
            yield from values(program.show, states)
        number += 1
        phase, active = stand(program, phase, states)
    yield f'{"stopped" if active else "settled"} {number}'
    if quiet:
        yield f'sum {sum(shown[0] for shown in map(program.show, states) if shown)}'
    else:
        yield from values(program.show, states)


def text_of(*arguments, **options):
    return ''.join(line + '\n' for line in lines(*arguments, **options))
