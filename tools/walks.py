#!/usr/bin/env python3
"""Writes the proofs of the thin functions over a lent board, in crates/lent, cowriestep, cowriestep_turn and cowriestep_tally: for each, proofs/NAME/Proof.antt, and for each
crate what its functions share: proofs/Lending.antt for those of an event, Storing.antt for those that store one part of the record alone, Advancing.antt for that of many ticks, Driving.antt for a collector's turn. Run it in the repository's root after a change to these functions or to the record. It reads the
functions, their parameters, callees and events, and where the answer lies behind the record, from the crates' sources; the events' cases and what a step
does are not in it.

All these functions have one shape. NAME(board: &mut Board, memory: &mut [u16], eeprom: &mut [u8], parameters..) calls CALLEE(*board, memory, eeprom, ..),
which makes the step, or many ticks, by value, and stores what comes back: `*board = out.board`, or one part of it, `board.PART = out.PART`. It passes its parameters on, after a variant of an enum or not. Those of cowriestep test the
lengths of the memories first and answer refusal 2 at once. A function's locals, in order:

    0 the answer   1 board   2 memory   3 eeprom   the parameters   what CALLEE returns
    where lengths are tested: memory's length   whether it is wrong   eeprom's length   whether it is wrong   whether one is
    the record's copy   memory's pointer and slice   eeprom's pointer and slice   the variant

The walk follows the statements and cites that file from the call on. Numbers in it are places in the list of what is owned at that point. The texts
are walk/proof.txt and walk/lending.txt; here is what is filled in.
"""
import os
from collections import namedtuple

import columns
from walk import source, terms
from walk.terms import chained, listed, loaded, local, paired
from walk.text import filled

# Thin functions of a crate that share a file: the record that their contracts name, what their callees return, which field of it is the answer, and what they
# promise of it and of the memories, by `ev` of a type. Where they store a part of the record alone: which, the law that the record with that part anew is the
# step's, and what is refused by 2 in their callees' form, with its law.
Family = namedtuple('Family', 'crate lending contract outcome answer promise event memory eeprom part law refused lengths_tested', defaults=('', '', 'refused2', 'lengths-tested'))
LENT = '(x .now) (m .now) (e .now) ev'
EVENT = ('Event', f'memoryAfter {LENT}', f'eepromAfter {LENT}')
TICKS = ('ℕ', 'm .now', 'e .now')
WORD = ('fifo', 'word-read-keeps', 'refusedWord2', 'word-lengths-tested')
TURNED = 'lentTurn ev (x .now) (m .now) (e .now)'
TURN = ('Collector', f'{TURNED} .board .memory', f'{TURNED} .board .eeprom')
FAMILIES = [
    Family('lent', 'Lending', 'Stepped', 'Outcome', 'answer', f'stepOf {LENT}', *EVENT),
    Family('lent', 'Advancing', 'Moved', 'Advanced', 'progress', f'advancedOf {LENT}', *TICKS),
    Family('cowriestep', 'Lending', 'Stepped', 'Numbered', 'number', f'numberedOf (stepOf {LENT})', *EVENT),
    Family('cowriestep', 'Storing', 'Stepped', 'WordNumbered', 'number', f'wordNumbered (stepOf {LENT})', *EVENT, *WORD),
    Family('cowriestep', 'Advancing', 'Moved', 'AdvancedNumbered', 'progress', f'advancedNumbered (advancedOf {LENT})', *TICKS),
    Family('cowriestep_tally', 'Lending', 'Stepped', 'Numbered', 'number', f'numberedOf (stepOf {LENT})', *EVENT),
    Family('cowriestep_turn', 'Driving', 'Driven', 'TurnNumbered', 'taken', f'turnNumbered (turnedIn ({TURNED}))', *TURN),
]


def of_family(family, types):
    """What both texts say of a crate of thin functions."""
    kind, at = types.field(family.outcome, family.answer)
    made = kind not in source.SCALARS
    answer = terms.Declared(kind, types.is_enum(kind), 'N', 'N′') if made else terms.of(kind, types)
    value = f'aval (r .{family.answer})' if made else 'aval r'
    name = kind if made else 'Answer'
    return dict(
        {name: 'Rattle·' + types.declared(name).crate for name in ('Board', 'Event')},
        crate=family.crate, lending=family.lending, promise=family.promise, outcome=family.outcome, outcome_crate='Rattle·' + types.declared(family.outcome).crate,
        event_type=family.event, memory_after=family.memory, eeprom_after=family.eeprom,
        answer=family.answer, answer_at=at, answer_is_declared=made, answer_name=name, answer_crate='Rattle·' + types.declared(name).crate,
        answer_laws=answer.laws if made else '', answer_row=answer.row, answer_makes=answer.makes, answer_value=f'({value})',
        answer_type='N′.mir' if made else 'numTy', answer_local='N′.mir' if made else 'S.numTy', answer_is=f'Is {answer.row} (r .{family.answer}) ({value} ∷ [])',
        answer_typed=f'{answer.laws}.lawful {answer.both} 𝓤 H A W {answer.tag}.typed (r .{family.answer}) _ is .0' if made else '(tt, record { fits = is .1 })')


def stored(part, r='r'):
    """The record once r is stored: the whole, or the part of it."""
    return f'with{part.capitalize()} (x .now) ({r} .{part})' if part else f'{r} .board'


def of_part(family, types):
    """What both texts say of what is stored."""
    part = family.part
    said = dict(part=part, stored=stored(part), stored_of_y=stored(part, 'y'), refused=family.refused, lengths_tested=family.lengths_tested)
    if not part:
        said.update(dict.fromkeys('part_type part_place part_at part_step part_used part_laws_used parts_anew with_part with_used was was_asked'.split(), ''))
        said.update(first='board', first_type='Boardᴸ.mir', first_value='bval', stored_words='board', closed_words='board that came back', closing='fields .0')
        return dict(said, to_place='(stop t)', store='store-raw t 4 {τ = Boardᴸ.mir} {v = bval (r .board)} refl')
    kind, at = types.field('Board', part)
    k, board, crate = types.place('Board', part), types.declared('Board').crate, 'Rattle·' + types.declared(kind).crate
    lies = f'{{τ = Partᴸ.mir}} {{d = {at}}}'
    anew = paired([f'was-in{" .1" * j} .0' for j in range(k)] + ['is'], f'was-in{" .1" * (k + 1)}')
    said.update(
        part_type=kind, part_place=k, part_at=at, part_step=f'field {k} ∷ ', part_used=f'use {crate}.specs.declared.{kind}.{{{kind}}}',
        part_laws_used=f'use {crate}.proofs.{kind} as Partᴿ\nuse {crate}.proofs.{kind}.Laws as Partᴸ',
        parts_anew=anew, with_part='with' + part.capitalize(), with_used=f'use Rattle·{board}.specs.Parts.{{with{part.capitalize()}}}',
        was=' was', was_asked='        → Was', first=part, first_type='Partᴸ.mir', first_value='pval', stored_words=f'part `{part}` of it', closing=f'made (r .{part}) was (fields .0)',
        closed_words='board with the part that came back', to_place=f'(fld t {lies} in-board (stop t))',
        store=f'store-part t 4 {k} Boardᴸ.mir {{τ = Partᴸ.mir}} {{τs = bTys}} {{vs = fieldVals (bval (x .now))}} {{d = {at}}} {{v₁ = bval ({stored(part)})}} refl board-fields (board-values (x .now)) part-field (part-anew (x .now) (r .{part}))')
    return said


def of_call(function, types):
    """What a proof says of the callee, of the event, and of what is passed beside what is lent: a variant, and the parameters."""
    crate, path, built = function.callee[0], function.callee[1:], function.built
    passed = [(p, terms.of(t, types)) for p, t in function.parameters]
    said = dict(built='', built_type='', built_value='')
    if built:
        kind = terms.Declared(built.type, True)
        passed = [(built.name, kind)] + passed
        said.update(built=built.name, built_type=built.type, built_value=kind.value(built.name))
    own = 'ftrue'
    for _ in passed:
        own = f'(fsep ftrue {own})'
    said.update(
        callee='·'.join(function.callee).replace('_', '-'), callee_called='::'.join(function.callee), callee_path='.'.join([f'Rattle·{crate}', 'proofs'] + path),
        event=function.event, args=f'𝓤 H A W κ κm κe q qm qe x m e {function.event}', declared_used=uses(function, types),
        passed_rows=''.join(t.row + ' ∷ ' for _, t in passed), passed_arguments=paired(['x .now', 'm', 'e'] + [p for p, _ in passed]),
        passed_apart=paired(['S.bval (x .now) ∷ []', 'sm ∷ []', 'se ∷ []'] + [t.value(p) + ' ∷ []' for p, t in passed]),
        own_bound=chained(['Unit {0}'] * len(passed)), own_said=own)
    return said


def uses(function, types):
    """The lines that bring in the declared types of a function, and the variants that its contract names."""
    kinds = [t for _, t in function.parameters if t not in source.SCALARS] + ([function.built.type] if function.built else [])
    lines = [f'use Rattle·{types.declared(v.type).crate}.specs.declared.{v.type}.the-variants.{{{v.name}}}' for v in function.named]
    for kind in kinds:
        crate = 'Rattle·' + types.declared(kind).crate
        lines += [f'use {crate}.specs.declared.{kind}.{{{kind}}}', f'use {crate}.proofs.{kind} as {kind}ᴿ', f'use {crate}.proofs.{kind}.Laws as {kind}ᴸ']
    return '\n'.join(lines)


def of_parameters(function, types):
    """What a proof says of the parameters: the three that are lent, and the others."""
    own = [(p, terms.of(t, types)) for p, t in function.parameters]
    after = [f'{" .1" * (3 + j)} .0' for j in range(len(own))]
    lent = dict(
        stay=['stay-ref (0 ∷ []) tt (plain (λ _. Boardᴿ.the-row))', 'gave-slice (1 ∷ []) tt (plain (λ _. u16))', 'gave-slice (2 ∷ []) tt (plain (λ _. u8))'],
        go=['goes-ref 𝓤 H A W 3 0 tt (plain (λ _. Boardᴿ.the-row))', 'goes-gave-slice 𝓤 H A W 3 1 tt (plain (λ _. u16))', 'goes-gave-slice 𝓤 H A W 3 2 tt (plain (λ _. u8))'],
        tells=['mut-tells (named 0) (κs .0) Boardᴿ.the-row', 'mut-slice-tells (named 1) (κs .1 .0) u16', 'mut-slice-tells (named 2) (κs .1 .1 .0) u8'])
    return dict(
        parameters=''.join(f' ({p} : {t.meaning})' for p, t in own) + ''.join(t.known(p) for p, t in own),
        parameters_owned=''.join(f' owned ! {t.row} (Is {t.row}) {t.makes} {p} _ {t.holds(p)} $ fjoin ! $' for p, t in reversed(own)),
        rows=''.join(t.row + ' ∷ ' for _, t in own),
        meanings=chained(['RefT Board', 'RefT (List ℕ)', 'RefT (List ℕ)'] + [t.meaning for _, t in own]),
        arguments=paired(['x', 'm', 'e'] + [p for p, _ in own]),
        values='ptr ∷ sm ∷ se ∷ ' + ''.join(t.value(p) + ' ∷ ' for p, t in own) + '[]',
        values_apart=paired(['ptr ∷ []', 'sm ∷ []', 'se ∷ []'] + [t.value(p) + ' ∷ []' for p, t in own]),
        value_lists=chained(['List Val'] * (3 + len(own))),
        lasts=paired([stored(function.part), 'zm', 'ze'] + ['tt'] * len(own)), lengths=paired(['tt', 'k .lm', 'k .le'] + ['tt'] * len(own)),
        vals=paired(['ptr-vals', 'slice-vals', 'slice-vals'] + [t.vals for _, t in own]),
        tells=paired(lent['tells'] + [t.tells for _, t in own]),
        stay=paired(lent['stay'] + [f'stay-none (λ _. {t.row}) yes' for _, t in own]),
        go=paired(lent['go'] + [f'goes-none 𝓤 H A W 3 (λ _. {t.row}) yes (λ κs x f. refl)' for _, t in own]),
        given=''.join(f'(a{way}) ' for way in after) + ''.join(t.told(f'are{way}') for (_, t), way in zip(own, after)))


def types_of_locals(function, types):
    """The types of the locals, by name, in the words that Lending.antt has of them."""
    pointer = {name: f'(tyRef {{}} mut (tyInt {width}))' for name, width in (('memory', 'w16'), ('eeprom', 'w8'))}
    said = dict(board='S.refTy', outcome='σ', copied='τ', built=f'{function.built.type}ᴸ.mir' if function.built else '')
    said.update(memory_length='(tyInt w64)', eeprom_length='(tyInt w64)', memory_wrong='tyBool', eeprom_wrong='tyBool', wrong='tyBool')
    for place, (name, of) in enumerate(pointer.items()):
        said.update({name: f'(sliceTy {of.format(f"(named {place + 1})")})', name + '_pointer': of.format('erased'), name + '_slice': f'(sliceTy {of.format("erased")})'})
    said.update({p: terms.of(t, types).type for p, t in function.parameters})
    return said


def of_locals(function, types):
    """The places of the locals, in the lists of what is owned along the walk. What is owned of a local is what lies in it, and that it can be freed."""
    begun = ['answer', 'board', 'memory', 'eeprom'] + [p for p, _ in function.parameters]
    tests = ['memory_length', 'memory_wrong', 'eeprom_length', 'eeprom_wrong', 'wrong'] if function.tested else []
    names = begun + ['outcome'] + tests + ['copied', 'memory_pointer', 'memory_slice', 'eeprom_pointer', 'eeprom_slice'] + (['built'] if function.built else [])
    count, at = len(names), {name: i for i, name in enumerate(names)}
    owned = [y for i in reversed(range(count)) for y in (('in', i), ('free', i))]
    front = [('in', at['outcome']), ('in', at['answer']), ('in', at['board'])]
    rest = [y for y in owned if y not in front]
    asked = ['asked', 'cell', 'obor', 'obs', 'auth'] + front + rest                   # once the call's arguments are made
    final = ['obs', 'bor', 'tok', 'toks', 'memory', 'eeprom'] + front + rest          # once it has returned
    refused = ['obs', 'bor', 'tok', 'toks', 'memory', 'eeprom'] + owned               # where the lengths are wrong
    arguments = (['built'] if function.built else []) + [p for p, _ in function.parameters]
    call = [at[name] for name in ['copied', 'memory_slice', 'eeprom_slice'] + arguments]
    passed = ['(tt, tt)', '(tt, (tt, (record { fits = rm .0 }, tt)))', '(tt, (tt, (record { fits = re .0 }, tt)))'] + [terms.of(t, types).typed(p) for p, t in function.parameters]
    to_end = lambda items: listed([items.index((s, i)) for i in range(count) for s in ('in', 'free')])
    said = {'at_' + name: 7 + owned.index(('in', i)) for name, i in at.items()}            # once the borrow is open
    said.update({'first_' + name: 5 + owned.index(('in', i)) for name, i in at.items()})   # before that
    kinds = types_of_locals(function, types)
    said.update(
        locals=' ∷ '.join(f'local {kinds[name]} valueLocal' for name in names[1:]) + ' ∷ []',
        allocated=' '.join(f'alloc1 ! (λ {local(i)}.' for i in range(count)), freed='S.gone ! $ ' * count, closed=')' * (count + 2 + function.tested), last_local=count - 1,
        refusal_freed=''.join('S.gone ! $ ' if name in begun + tests else 'free1 ! $ ' for name in names), to_refusal=to_end(refused),
        passed=' $ '.join(f'pass1 ! (init ! {2 * (count - 2 - j)} refl {t})' for j, t in enumerate(passed)), entry_at=2 * count + 1, tokens_at=2 * count + 3,
        outcome_local=local(at['outcome']), outcome_at=at['outcome'],
        call_at=(12 if function.tested else 6) + (1 if function.built else 0), call_operands=listed([f'copy (place {i} [])' for i in call]), call_loads=loaded([asked.index(('in', i)) for i in call]),
        to_call=listed([5, 0, 1, 2, 3, 4] + [6 + owned.index(y) for y in front]), to_end=to_end(final))
    return said


def write(path, text):
    os.makedirs(os.path.dirname(path), exist_ok=True)
    with open(path, 'w') as out:
        out.write(text)
    return path


def main():
    types, written = source.Types(), []
    for family in FAMILIES:
        proofs, functions = f'crates/{family.crate}/proofs', source.thin_functions(family.crate, family.contract, family.part)
        said = dict(of_family(family, types), **of_part(family, types), tested=any(function.tested for function in functions))
        written.append(write(f'{proofs}/{family.lending}.antt', filled('lending.txt', said)))
        for function in functions:
            own = dict(name=function.name, kebab=function.name.replace('_', '-'), tested=function.tested)
            for of in (of_call, of_parameters, of_locals):
                own.update(of(function, types))
            own.update(by_law=f' ∙ {family.law} (x .now) (m .now) (e .now) {" ".join(p for p, _ in function.parameters)}' if family.part else '')
            written.append(write(f'{proofs}/{function.name}/Proof.antt', filled('proof.txt', {**said, **own})))
    columns.settle(written)


if __name__ == '__main__':
    main()
