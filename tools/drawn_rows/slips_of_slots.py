"""Wrong definitions of searches, scripts, slots, texts and runs, each with the kind that must
refuse it."""
from __future__ import annotations

from .slips import PRELUDE, REMAINDER, Wrong

LATE, LONG, ODD = ('record {{ time = before; what = Err {} }}'.format(it) for it in (4, 1, 2))

SEARCHES = (
    Wrong('bin_of', 'Acquisition', 'pos (cell / 2046) -ℤ', 'pos (cell / 2045) -ℤ'),
    Wrong('cell_phases', 'Acquisition', 'half_chip_of cell * 2 ^ 31;', 'cell * 2 ^ 31;'),
    Wrong('dwell_end', 'Acquisition', 'start + plan.dwell * samples_per_ms settings',
          'start + (plan.dwell * settings.rate) / 1000'),
    Wrong('due_time', 'Acquisition', '+ 4 * cell_count plan', '+ 4 * 2046 * plan.bins'),
    Wrong('cells_done', 'Acquisition', 'min (cell_count plan) ((t', 'min 2046 ((t'),
    Wrong('power_of', 'Acquisition', '(range_with_len 0 plan.dwell)',
          '(range_with_len 0 (min plan.dwell 2))'),
    Wrong('greatest_of', 'Acquisition', 'nat_le (power k) (power cell)',
          'nat_le (power k + k) (power cell + cell)'),
    Wrong('named_cell', 'Acquisition', '(10 * power cell * cell_count plan)',
          '(9 * power cell * cell_count plan)'),
    Wrong('found_channel', 'Lives', '(due - begun)', 'due'),
    Wrong('due_events', 'Events', 'when (due_time settings plan begun == length xs)',
          'when (nat_le (due_time settings plan begun) (length xs))'),
    Wrong('found_nothing', 'Lives', '&& not (result_of', '&& (result_of'),
)

SCRIPTS = (
    Wrong('is_printable', 'Scripts', 'nat_le 0x20 b && nat_le b 0x7e',
          'nat_le 0x20 b && not (b == 0x7f)'),
    Wrong('number_in', 'Scripts', 'nat_le (length word) 13', 'nat_le (length word) 14'),
    Wrong('signed_number_in', 'Scripts', 'if slice_index word 0 == 45 then option_map',
          'if (slice_index word 0 == 45) && nat_lt 13 (length word) then None\n'
          '    else if slice_index word 0 == 45 then option_map'),
    Wrong('time_in', 'Scripts', 'nat_le t (2 ^ 40)', 'nat_lt t (2 ^ 40)'),
    Wrong('entry_of', 'Scripts', 'counts (number v 0)', 'counts (number v 0 % 65536)', REMAINDER),
    Wrong('entry_of', 'Scripts', 'number values 2;', 'number values 2 % 8;', REMAINDER),
    Wrong('entry_of', 'Scripts',
          f'if nat_lt 80 (length line) then {LONG} ∷ []\n'
          f'    else if not (list_all is_printable line) then {ODD} ∷ []',
          f'if not (list_all is_printable line) then {ODD} ∷ []\n'
          f'    else if nat_lt 80 (length line) then {LONG} ∷ []'),
    Wrong('entry_of', 'Scripts', f'then {LATE}',
          'then record { time = before; what = elim (command_in known slots words)'
          ' [ Ok c ↦ Err 4 | Err n ↦ Err n ] }'),
    Wrong('script', 'Scripts', '(last_time before here) lines', 'before lines'),
)

SLOTS = (
    Wrong('held_channel', 'Lives', 'code = half_chip * 2 ^ 31;\n      steering = λ _.',
          'code = half_chip * 2 ^ 32;\n      steering = λ _.'),
    Wrong('bit_events_of_words', 'Events', 'subframe found.subframe ∷ []\n',
          '(if is_complete found.subframe then subframe found.subframe ∷ [] else [])\n',
          'Rattle.definitions.specs.Frames.{is_complete}'),
    Wrong('bit_events', 'Events', 'nat_le (n + 300) (length bits)',
          'nat_lt (n + 300) (length bits)'),
    Wrong('report_events', 'Events',
          'events_of reported reports.page ++ events_of almanacs reports.set',
          'events_of almanacs reports.set ++ events_of reported reports.page'),
    Wrong('unprinted_count', 'Events', 'nat_lt life.wanted_from d.time',
          'nat_le life.wanted_from d.time'),
    Wrong('tracking_view', 'Answers', '(is_locked dumps) (has_edge', 'true (has_edge',
          PRELUDE + '.{true}'),
    Wrong('tracking_view_of_many', 'Answers', 'tracking prn (length dumps)',
          'tracking prn (length dumps % 65536)', REMAINDER),
    Wrong('channel_view', 'Answers', 'holding channel.prn (length dumps)',
          'holding channel.prn (length dumps % 65536)', REMAINDER),
    Wrong('channel_view_tracked', 'Answers', '(channel.steering (counts_of dumps))',
          '(channel.steering [])', PRELUDE + '.{[]}'),
    Wrong('is_steered', 'Lives', 'is_steered (acquire plan) = true',
          'is_steered (acquire plan) = false'),
    Wrong('answer_at_end', 'Lives', 'doppler *ℤ pos 65536', 'doppler *ℤ pos 65537'),
    Wrong('answer_with', 'Answers', 'None stop = refused 10', 'None stop = refused 9'),
    Wrong('is_lost', 'Lives', 'is_steered life.start && is_some', 'is_some'),
    Wrong('is_over', 'Lives', 'life.start || is_lost', 'life.start && is_lost'),
    Wrong('unprinted_count', 'Events', 'wanted_from d.time', 'begun d.time'),
    Wrong('full', 'Receiver', 'nat_lt e.time time', 'nat_le e.time time',
          PRELUDE + '.{nat_le}'),
)

TEXTS = (
    Wrong('event_text', 'Texts', 'decimal cell.half_chip ∷ decimal cell.power',
          'decimal cell.power ∷ decimal cell.half_chip'),
    Wrong('line_of', 'Banks', 'for_client t.client', 'for_client t.slot'),
    Wrong('view_text', 'Texts', 'if has_edge then codes "bits"', 'if is_locked then codes "bits"'),
    Wrong('at_time', 'Texts', 'decimal time ++ 32', 'decimal time ++ 9'),
    Wrong('body', 'Receiver', 'event_lines settings clients xs ++ answer_lines settings clients xs',
          'answer_lines settings clients xs ++ event_lines settings clients xs'),
    Wrong('alone_to_end', 'Receiver', 'range_with_len 0 (length xs + 1)',
          'range_with_len 0 (length xs)'),
    Wrong('event_lines', 'Receiver', 'enumerate_from 1 clients', 'enumerate_from 0 clients'),
    Wrong('event_lines_of_two_slots', 'Receiver', '(range_with_len 0 client.slots)',
          '(range_with_len 0 1)'),
    Wrong('lines_of_client', 'Receiver', 'starts_with nat_eq line (for_client client [])',
          'starts_with nat_eq line (take 1 (for_client client []))'),
    Wrong('slot_events', 'Banks', 'slot = slot; time = time;', 'slot = slot; time = slot;'),
    Wrong('are_clients', 'Runs', 'nat_le (length scripts) 8', 'nat_le (length scripts) 9'),
    Wrong('are_shares', 'Runs', '(length shares == length scripts)',
          'nat_le (length shares) (length scripts)'),
    Wrong('is_too_long', 'Runs', 'nat_lt task.limit', 'nat_le task.limit'),
    Wrong('layout', 'Banks', 'enumerate_from 1 shares', 'enumerate_from 0 shares'),
)

SLIPS = (*SEARCHES, *SCRIPTS, *SLOTS, *TEXTS)
