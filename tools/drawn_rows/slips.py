"""Wrong definitions of the signal, the loops, the message, its pages and its sets, each with the
kind that must refuse it. Hostile readers wrote the first ones of some modules: names exchanged, two
floors for one, limits left out, an order or a kind of which no worked row speaks."""
from __future__ import annotations

from typing import NamedTuple


class Wrong(NamedTuple):
    """A wrong definition: the kind that must refuse it, its module, what stands there, what stands
    there instead, and the import of what the module lacks for that."""
    kind: str
    module: str
    old: str
    new: str
    needs: str = ''


PRELUDE = 'Rattle.std.specs.Prelude'
REMAINDER = PRELUDE + '.{◌%◌}'
SUM_OF_SIZES = 'sum_by (λ (d : Counts). unsigned_abs d.{}) (window dumps j)'
SIZE_OF_SUM = '(unsigned_abs (fold (λ s (d : Counts). s +ℤ d.{}) (pos 0) (window dumps j)))'
FOLD = PRELUDE + '.{fold, ◌+ℤ◌, ℤ, pos}'

SIGNAL = (
    Wrong('floor_div', 'Sums', 'floor_div z d = int_div_euclid z (pos d)',
          'floor_div z d = neg_ℤ (int_div_euclid (neg_ℤ z) (pos d))', PRELUDE + '.{neg_ℤ}'),
    Wrong('floor_mod', 'Sums', 'natural (int_rem_euclid z (pos d))',
          'natural (int_rem_euclid (neg_ℤ z) (pos d))', PRELUDE + '.{neg_ℤ}'),
    Wrong('sample', 'Samples', 'two_bits_at bytes (4 * i + 2)', 'two_bits_at bytes (4 * i + 1)'),
    Wrong('samples_from', 'Samples', '(range_with_len first count)', '(range_with_len 0 count)'),
    Wrong('samples', 'Samples', 'samples_per_byte packing * length bytes', 'length bytes'),
    Wrong('chip', 'Codes', 'chip_after prn (n % 1023)', 'chip_after prn (n % 1024)'),
    Wrong('samples_per_ms', 'Oscillators', 'settings.rate / 1000', '(settings.rate + 999) / 1000'),
    Wrong('carrier_step', 'Oscillators',
          'floor_div ((settings.offset *ℤ pos 65536 +ℤ v) *ℤ pos 65536) settings.rate',
          'floor_div (settings.offset *ℤ pos 65536 *ℤ pos 65536) settings.rate'
          ' +ℤ floor_div (v *ℤ pos 65536) settings.rate'),
    Wrong('code_step', 'Oscillators',
          'floor_div ((pos (1023000 * 65536) +ℤ floor_div v 1540 +ℤ w) *ℤ pos 65536)\n'
          '    settings.rate',
          'floor_div (pos (1023000 * 65536) *ℤ pos 65536) settings.rate'
          ' +ℤ floor_div ((floor_div v 1540 +ℤ w) *ℤ pos 65536)\n    settings.rate'),
    Wrong('code_phase_after', 'Oscillators', 'code_cycle = 1023 * 2 ^ 32',
          'code_cycle = 1024 * 2 ^ 32'),
    Wrong('carrier_phase_after', 'Oscillators', 'carrier_phase_after phase step j = (phase',
          'carrier_phase_after phase step j = (step'),
    Wrong('early_sign', 'Oscillators', 'prompt_sign prn ((phase + 2 ^ 31)',
          'prompt_sign prn ((phase + 2 ^ 30)'),
    Wrong('prompt_sign', 'Oscillators', 'chip_sign prn (phase / 2 ^ 32)',
          'chip_sign prn ((phase + 2 ^ 31) / 2 ^ 32)'),
    Wrong('late_sign', 'Oscillators', 'code_cycle - 2 ^ 31)', 'code_cycle - 2 ^ 30)'),
    Wrong('late_sign_at_start', 'Oscillators', '(phase + code_cycle - 2 ^ 31)',
          '(phase - 2 ^ 31)'),
    Wrong('early_sign_at_end', 'Oscillators', '((phase + 2 ^ 31) % code_cycle)',
          '(min (phase + 2 ^ 31) (code_cycle - 1))', PRELUDE + '.{min}'),
    Wrong('cosine', 'Oscillators', 'get_or cosines (phase / 2 ^ 29)',
          'get_or cosines ((phase + 2 ^ 28) / 2 ^ 29)'),
    Wrong('sine', 'Oscillators', 'get_or sines (phase', 'get_or cosines (phase'),
    Wrong('counts_over', 'Correlation', 'x.quadrature *ℤ cos -ℤ x.in_phase *ℤ sin',
          'x.quadrature *ℤ cos +ℤ x.in_phase *ℤ sin'),
    Wrong('sum_of_counts', 'Correlation', 'il = a.il +ℤ b.il', 'il = a.il +ℤ b.ie'),
    Wrong('phases_after', 'Correlation', 'carrier_phase_after p.carrier p.carrier_step k',
          'p.carrier'),
    Wrong('next_segment', 'Segments', 'carrier_phase_after s.carrier p.carrier_step',
          'carrier_phase_after p.carrier_step s.carrier'),
    Wrong('is_through', 'Segments', 'nat_lt s.start e && nat_le code_cycle',
          'nat_lt s.start e && nat_lt code_cycle'),
    Wrong('end_by', 'Segments', 'least_below (is_through s step) (n + 1)',
          'least_below (is_through s step) n'),
    Wrong('phases_of', 'Segments', 'code_step settings shift.v shift.w',
          'code_step settings shift.w shift.v'),
    Wrong('open_phases', 'Segments', 'channel.steering (counts_of p.dumps)',
          'channel.steering []'),
    Wrong('closed_at', 'Segments', 'xs p.open_segment.start e;',
          'xs (p.open_segment.start + 1) e;'),
    Wrong('progress', 'Segments', 'record { start = channel.start; code = channel.code;',
          'record { start = channel.code; code = channel.start;'),
)

LOOPS = (
    Wrong('frequency_error', 'Loops', 'before.ip *ℤ d.qp -ℤ d.ip *ℤ before.qp',
          'before.ip *ℤ d.qp -ℤ before.ip *ℤ before.qp'),
    Wrong('frequency_error', 'Loops', 'ratio (cross *ℤ sgn dot)', 'ratio (cross *ℤ sgn d.qp)'),
    Wrong('phase_error', 'Loops', 'unsigned_abs d.ip + unsigned_abs d.qp',
          'unsigned_abs d.ip + unsigned_abs d.ip'),
    Wrong('code_error', 'Loops', 'd.il *ℤ d.il +ℤ d.ql *ℤ d.ql', 'd.il *ℤ d.il +ℤ d.qe *ℤ d.qe'),
    Wrong('clamp_shift', 'Loops', 'int_max (neg_ℤ (pos (2 ^ 30)))',
          'int_max (neg_ℤ (pos 1073741823))'),
    Wrong('ratio', 'Loops', '(max 1 b)', '(max 2 b)'),
    Wrong('loops_after_dump', 'Loops', 'else pos 6 *ℤ phase_error d))',
          'else pos 6 *ℤ phase_error l.last))'),
    Wrong('loops_after_dump', 'Loops', 'pos 170 *ℤ phase_error d', 'pos 170 *ℤ phase_error l.last'),
    Wrong('loops_after_dump', 'Loops', 'pos 160 *ℤ frequency_error l.last d',
          '(if nat_lt l.taken 100 then pos 160 else pos 80) *ℤ frequency_error l.last d'),
    Wrong('loops_after_dump', 'Loops', 'pos 16 *ℤ code_error d',
          '(if nat_lt l.taken 200 then pos 16 else pos 8) *ℤ code_error d'),
    Wrong('loops_after_dump', 'Loops', 'let u = clamp_shift (l.u', 'let u = (l.u'),
    Wrong('loops_after_dump', 'Loops', 'else clamp_shift (u +ℤ', 'else (u +ℤ'),
    Wrong('loops_after', 'Loops', 'taken = 0; last = no_counts; u = v; v = v;',
          'taken = 0; last = no_counts; u = pos 0; v = v;'),
    Wrong('is_good', 'Lock', SUM_OF_SIZES.format('ip'), SIZE_OF_SUM.format('ip'), FOLD),
    Wrong('is_good', 'Lock', SUM_OF_SIZES.format('qp'), SIZE_OF_SUM.format('qp'), FOLD),
    Wrong('news_of', 'Lock', 'is_good dumps j = nat_le (2',
          f'is_good dumps j = nat_le 1 ({SUM_OF_SIZES.format("ip")}) && nat_le (2'),
    Wrong('is_locked', 'Lock', 'any_good dumps 10 n', 'any_good dumps 11 n'),
    Wrong('is_lost_with', 'Lives', 'lost ↦ true | nothing', 'lost ↦ false | nothing'),
    Wrong('pushes_of', 'Events', 'is_locked (take k dumps) && is_locked',
          'is_locked (take (suc k) dumps) && is_locked'),
)

MESSAGE = (
    Wrong('edge_of', 'BitEdge', '(k - 1)) k == 16', '(k - 1)) k == 2'),
    Wrong('bits_after', 'BitEdge', '(edge + 20 * i) (edge + 20 * i + 20)',
          '(edge + 20 * i) (edge + 20 * i + 19)'),
    Wrong('is_change', 'BitEdge', 'nat_le 1 k\n    && xor', 'nat_le 2 k\n    && xor'),
    Wrong('changes_at', 'BitEdge', '(range_with_len (r + 1) (k - r))',
          '(range_with_len r (k - r))'),
    Wrong('is_crowded', 'BitEdge', 'nat_le 4 (changes_at', 'nat_le 5 (changes_at'),
    Wrong('checked_data', 'Parity', '19 ∷ 20 ∷ 22 ∷ []', '19 ∷ 20 ∷ 21 ∷ []'),
    Wrong('found_by', 'Frames', 'found_among bits (Some (n + 300)) ns',
          'found_among bits (Some (n + 301)) ns'),
    Wrong('starts_of', 'Frames', 'n ∷ starts_from bits k (n + 300)',
          'n ∷ starts_from bits k (n + 301)'),
    Wrong('subframe_at', 'Frames', 'checked_at bits (n + 30 * i)',
          'checked_at bits (n + 30 * (i % 9))'),
    Wrong('gap_from', 'Frames', 'Some (start - awaited)', 'Some ((start - awaited) % 300)'),
    Wrong('id_in', 'Frames', 'data2 / 4 % 8', 'data2 / 4 % 4'),
    Wrong('tow_in', 'Frames', 'data2 / 2 ^ 7', 'data2 / 2 ^ 7 % 65536'),
    Wrong('has_preamble', 'Frames', 'data1 / 2 ^ 16 == 0x8b', 'data1 / 2 ^ 16 % 128 == 0xb'),
    Wrong('is_header', 'Frames', '(last == prior)', 'nat_le last prior'),
    Wrong('field_of', 'Fields', 'signed (codes "m0") (bits 107 114 ∷ bits 121 144 ∷ [])',
          'signed (codes "m0") (bits 121 144 ∷ bits 107 114 ∷ [])'),
    Wrong('kind_of_page', 'Pages', '(sv == 51)', '((sv == 51) || (sv == 63))'),
    Wrong('kind_of_page', 'Pages', '(sv == 55)', '((sv == 55) || (sv == 53))'),
    Wrong('page_of', 'Pages', 'if is_complete s\n', 'if nat_le 1 (id_of s)\n'),
    Wrong('reports_of', 'DataSets', 'is_looked_for = is_ephemeris;',
          'is_looked_for = λ (p : Page). is_of clock p || is_of eph3 p;'),
    Wrong('reports_of', 'DataSets', 'else Some (single page)',
          'else if is_of message page then None else Some (single page)'),
    Wrong('reports_of', 'DataSets', 'else Some (single page)',
          'else if length pages == 1 then Some (single page)\n'
          '    else if option_map_or (λ (p : Page). is_of p.kind page'
          ' && same_values p.values page.values)\n'
          '    (slice_get pages (length pages - 2)) false then None else Some (single page)'),
    Wrong('reports_of_almanacs', 'DataSets', 'pointwise int_eq xs ys',
          'pointwise int_eq (take 40 xs) (take 40 ys)'),
    Wrong('health_of', 'DataSets', '(codes "health") page', '(codes "toa") page'),
    Wrong('ephemeris_of', 'DataSets', '(iodc c) (pos 256)', '(iodc c) (pos 512)'),
)

SLIPS = (*SIGNAL, *LOOPS, *MESSAGE)
