"""Wrong definitions of what is seldom come upon, each with the kind that must refuse it."""
from __future__ import annotations

from .slips import REMAINDER, Wrong

SLIPS = (
    Wrong('entries_after_blank', 'Scripts', '(last_time before here) lines',
          '(last_time 0 here) lines'),
    Wrong('reply_text_of_slots', 'Receiver', '(commands_to c.slot before) c.request',
          '(commands_to 0 before) c.request'),
    Wrong('entry_answer_texts_of_slots', 'Receiver', '(take i entries) entry.what',
          '(entries_before (length xs) entries) entry.what'),
    Wrong('event_texts_of_last', 'Receiver', '(range_with_len 0 client.slots)',
          '(range_with_len 0 4)'),
    Wrong('lines_at_of_two', 'Receiver',
          'event_lines settings clients xs ++ answer_lines settings clients xs',
          'for_each_client (λ client. timed_texts xs (event_texts settings client xs)\n'
          '    ++ timed_texts xs (answer_texts settings client xs)) clients'),
    Wrong('named_cell_of_bins', 'Acquisition', '(10 * power cell * cell_count plan)',
          '(10 * power cell * 2046)'),
    Wrong('news_of_many', 'Lock', 'nat_le 219 (length dumps) && (',
          'nat_le 219 (length dumps) && nat_le (length dumps) 65535 && ('),
    Wrong('dump_events_tracked', 'Events',
          'when (nat_lt 0 (unprinted_count life (front_of dumps))) (count d.counts)\n'
          '    ++ (if is_steered life.start then steered_events (counts_of dumps) else [])',
          '(if is_steered life.start then steered_events (counts_of dumps) else [])\n'
          '    ++ when (nat_lt 0 (unprinted_count life (front_of dumps))) (count d.counts)'),
    Wrong('events_at_end_asked', 'Events', '(life_now settings (front_of xs) commands)',
          '(life_now settings xs commands)'),
    Wrong('ratio', 'Loops', '(max 1 b)', '(max 1 (b % 2 ^ 40))', REMAINDER),
    Wrong('loops_after_dump', 'Loops', 'nat_lt (l.taken + 1) 200',
          'nat_lt ((l.taken + 1) % 4096) 200', REMAINDER),
    Wrong('almanacs_text', 'Texts', 'signed_decimal set.toa', 'decimal (natural set.toa)',
          'Rattle.definitions.specs.Sums.{natural}'),
    Wrong('until_lost', 'Lives', 'Some k ↦ take k dumps', 'Some k ↦ take (k + 1) dumps'),
    Wrong('starts_from_next', 'Frames', 'starts_from bits k (n + 300)',
          'starts_from bits k (n + 301)'),
)
