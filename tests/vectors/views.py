"""The cases of views, run on the reference model."""
import zlib

from .alignment_cases import ALIGNMENT_GROUPS
from .calls import YES
from .extent_cases import extent_groups
from .generated_cases import generated_groups, generated_mixtures
from .making_cases import making_groups
from .order_cases import order_groups, ORDERS
from .plaintext_cases import MIXTURES, plaintext_groups
from .records import (Case, MADE_UP, MOVES, outcome, PLAIN, PROTECTED, READ, READ_EXTENT, READ_PLAINTEXT, same, spaced,
                      WRITE, WRITE_EXTENT, WRITE_PLAINTEXT)
from .reference_model import filled, plain_view, protected_view, ReferenceModel
from .sector_cases import SECTOR_GROUPS
from .view_cases import ACCESS_GROUPS

# What the cells for the sector and the offset hold before a call: this and its seed, which no call tells.
SECTOR_BEFORE, OFFSET_BEFORE = 10**18, 2 * 10**18

# The answers that generated calls must reach; those whose answer is written by hand reach 13 too.
READ_ANSWERS = {YES, 11, 14, 15, 20, 16}
WRITE_ANSWERS = READ_ANSWERS | {17, 18}
ANSWERS = {READ: READ_ANSWERS, READ_EXTENT: READ_ANSWERS, READ_PLAINTEXT: READ_ANSWERS,
           WRITE: WRITE_ANSWERS, WRITE_EXTENT: WRITE_ANSWERS, WRITE_PLAINTEXT: WRITE_ANSWERS}


def all_groups():
    accesses = [*ACCESS_GROUPS, *SECTOR_GROUPS, *ALIGNMENT_GROUPS]
    return [*accesses, *making_groups(), *order_groups(), *extent_groups(accesses), *generated_groups(),
            *plaintext_groups(accesses), *generated_mixtures()]


def calls():
    """Every call as its group's title, its name, its answer and itself. It has a seed, its own where none was said."""
    number = 0
    for title, group in all_groups():
        for place, (answer, call) in enumerate(group, start=1):
            number += 1
            seed = number if call.get('seed') is None else call['seed']
            yield title, f"{title}, {place} {call['text']}", answer, {**call, 'seed': seed}


def view_numbers(view):
    protected = view['protected']
    return [*view['layout'].values(), int(protected is not None), *(protected or (0, 0)), int(view['locked'])]


def numbers(call):
    """The numbers of a call's record."""
    if call['request'] in (PLAIN, PROTECTED):
        return [number for fields in call['layouts'] for number in fields.values()]
    if call['request'] == MADE_UP:
        return view_numbers(call['view'])
    asked = [call[field] for field in ('image', 'first', 'count', 'buffer')]
    before = call['seed'] if call['request'] in MOVES else OFFSET_BEFORE + call['seed']
    return [*asked, before, SECTOR_BEFORE + call['seed']]


def run_call(model, call):
    """What the model tells."""
    request, slot = call['request'], call['slot']
    if request == PLAIN:
        return model.make(slot, plain_view(*call['layouts']))
    if request == PROTECTED:
        return model.make(slot, protected_view(*call['layouts']))
    if request == MADE_UP:
        return model.make(slot, call['view'])
    is_write = request in (WRITE, WRITE_EXTENT, WRITE_PLAINTEXT)
    extent = (call['image'], call['first'], call['count'])
    if request in (READ_EXTENT, WRITE_EXTENT):
        return model.extent(slot, is_write, *extent, call['buffer'])
    return model.call(slot, is_write, *extent, filled(call['buffer'], call['seed']), call['key'])


def cell(told, before):
    """A cell that is left as it was where nothing is told."""
    return before if told is None else told


def answers(call, told, model):
    printed = [('', outcome(told.answer))]
    sector = ('sector ', cell(told.sector, SECTOR_BEFORE + call['seed']))
    if call['request'] in MOVES:
        sums = f'{zlib.crc32(told.left):08x}', f'{model.checksum():08x}'
        printed += [sector, ('buffer ', sums[0]), ('image ', sums[1])]
    if call['request'] in (READ_EXTENT, WRITE_EXTENT):
        printed += [('offset ', cell(told.left, OFFSET_BEFORE + call['seed'])), sector]
    return [*printed, ('view', spaced(view_numbers(model.views[call['slot']])))]


def views():
    model = ReferenceModel()
    given, groups = {'by hand': set(), 'generated': set()}, {}
    for title, name, answer, call in calls():
        told = run_call(model, call)
        if answer is not None:
            same(name, (answer, call.get('sector')), (told.answer, told.sector))
        given['generated' if answer is None else 'by hand'].add((call['request'], told.answer))
        group = groups.setdefault(title, {0: [], 1: []})
        group[call['slot']].append(told)
        group['after'] = (list(model.sectors), list(model.views))
        yield Case(call['request'], name, answers(call, told, model), numbers(call), call.get('key', b''), call['slot'])
    for source, others in (('generated', set()), ('by hand', {13})):
        missing = {(request, answer) for request in ANSWERS for answer in ANSWERS[request] | others} - given[source]
        assert not missing, f'{source}, these requests never have these answers: {missing}'
    orders = ['order', *(f'{name}, order' for name in MIXTURES)]
    for title in [*orders, *(f'before {order}' for order in orders)]:
        first, *others = [groups[f'{title} {order}'] for order in ORDERS]
        assert others == [first] * len(others), f'{title}: the three differ in what they tell, the image or a view'
