#!/usr/bin/env python3
"""Counts the places in src/ that docs/DESIGN-PASS.md counts, by its points 1 to 7.

usage: python3 tools/forms.py [-v] [POINT ..]      at the top of the repository; -v prints each place
"""
import glob
import re
import sys

POINTS = {
    '1a own enum with a case for nothing': r'^(pub )?enum (Found|Number|Line|Asked|Command|Next)\b',
    '1b field or result that is the number of a refusal': r'^\s*(pub )?code: u64,|^\s*code: u64,|\(code: u64|, code: u64|fn (judge\w*|votes_code|generate_by_votes|turn_code|list_code)\(',
    '1c flag beside a value': r'^\s*(pub )?(wrong|fits|all|whole|found|over|done): bool,',
    '1d number for a kind': r'\bkind: u64|^\s*pub const [A-Z_]+: (u64|i32) = [1-7];|\bto: i32',
    '1e number that is 0 for none': r'// .*\b0 (none|where)|former: u64',
    '2 twins': None,
    '3a for over an index': r'^\s*for \w+ in .*\.\.',
    '3b while that counts or walks': r'^\s*while .*(<|>|!= 0|<=|>=)',
    '4a comparison by hand': r'fn (same_bytes|same_kind|starts_with|is_resting|is_waiting|is_inside)\(',
    '4b conversion by hand': r'fn (row|message|mode_value|holder_value|mode_from|arbiter_from|message_value|message_from|message_of|number_value|event_at)\(',
    '4c copy by hand': r'^\s*(let \w+ = \w+\.\w+;|let \w+_after = |let (sets|rig|numbers|site|arbiter|stage|mode) = \w+\.\w+;)$',
    '4d printing by hand': r'fn print_(name|sides|field|code|site)\(',
    '5 parameters that travel together': r'^\s*count: usize,|, count: usize|^\s*at: usize,|, at: usize|accepted: u64,',
    '6a buffer with a length beside it': r'(list|out|sent|text|page): &(mut )?(\[|Rows|Outbox|Page|PlanPage|TextPage).*count: usize|held: usize',
    '6b part of a buffer by indices': r'\[\w+\.\.\w*\]|\[\.\.\w+',
    '7 switch on which step to run': r'(asks|saves): bool',
}
TWINS = [
    'player_grammar: sites_line, ask_line, leave_line',
    'save_taking: Taken, TakenLine, TakenSite, TakenArbiter; save_reading: TakenSites, TakenArbiters',
    'event_sites: sender, receiver',
    'rig_modes: is_resting, is_waiting, is_inside',
    'save_writing: put_sets, put_sites, put_arbiters, put_messages',
    'save_entries: entries_value, members_value',
    'list_search::first, list_lent::first',
    'list_rows::append, list_lent::append',
    'player_console::play_on, state_input::save_on',
    'family_rules::with_site, save_entries::with_site',
    'player_numbers::read_number, plan_numbers::number_of',
    'plan_lines::put_member, save_lines::put_number',
    'save_numbers::Numbers, save_fields::Numbers',
    'families::fill, fill_by_votes',
    'player_event::play_event, the turn of player_events::play_events',
    'plan_cases::print_word, state_cases::print_word',
    'setup_faults::judge, judge_meeting',
    'plan_cases, state_cases: the calls of print_case, one a line',
    'print_families: the calls of print_family, one a line',
    'rig::Message: request, inquire, fail, yielding',
]


def main(args):
    verbose = '-v' in args
    wanted = [a for a in args if a != '-v']
    files = sorted(glob.glob('crates/*/src/*.rt'))
    for point, pattern in POINTS.items():
        if wanted and not any(point.startswith(w) for w in wanted):
            continue
        if pattern is None:
            continue
        found = []
        for f in files:
            for i, line in enumerate(open(f), 1):
                if re.search(pattern, line):
                    found.append('%s:%d: %s' % (f[7:], i, line.strip()))
        print('%s: %d' % (point, len(found)))
        if verbose:
            print('\n'.join('    ' + x for x in found))


main(sys.argv[1:])
