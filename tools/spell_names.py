#!/usr/bin/env python3
"""Spells the repository's own definitions and lemmas as Rattle does today: words in snake case, types in
camel case; a dash stays only where it joins two functions' names. In proof files it also spells the names
that Rattle makes of source names, which keep the source's spelling. Run once, at the top, after port.py.

Only .antt files, and the lines of .rt files that are read as clauses, are touched; strings are left alone."""
import glob
import re

TABLE = """
    Goes_on GoesOn
    Has-read HasRead
    In-range InRange
    In-range-literal InRangeLiteral
    Kept-named KeptNamed
    Named-part NamedPart
    Numbered-alike NumberedAlike
    Of-line OfLine
    One-word OneWord
    Sure-past SurePast
    after-closed after_closed
    after-line-append after_line-append
    after-not after_not
    after-not-sure after_not_sure
    after-p after_p
    after-p-at after_p_at
    after-plus-decimal after_plus-decimal
    after-plus-none after_plus_none
    after-plus-some after_plus_some
    all-data all_data
    all-depths all_depths
    all-letters all_letters
    all-totals all_totals
    all-unplaced all_unplaced
    and-false and_false
    and-on and_on
    and-test-or and_test_or
    answer-to answer_to
    assign-sure assign_sure
    assigned-is assigned_is
    assigned-named assigned_named
    at-digit at_digit
    at-end at_end
    at-hand at_hand
    at-least-past at_least_past
    at-refused at_refused
    backlink-of backlink_of
    bare-at bare_at
    before-colon-at before_colon_at
    begin-check begin_check
    begun-found begun_found
    begun-past begun_past
    begun-stands begun_stands
    begun-with begun_with
    blames-both blames_both
    blames-first blames_first
    blames-later blames_later
    blames-next blames_next
    both-now both_now
    by-keyword by_keyword
    check-named check_named
    closed-fewer closed_fewer
    closed-found closed_found
    closed-past closed_past
    closing-past closing_past
    cond-past cond_past
    count-push count_push
    cut-none cut_none
    cut-plain cut_plain
    cut-read cut_read
    cut-some cut_some
    cut-words cut_words
    data-like data_like
    data-no data_no
    data-yes data_yes
    decide-and-or decide_and_or
    decided-sure decided_sure
    decimal-all decimal_all
    decimal-at decimal_at
    decimal-digits decimal_digits
    decimal-first decimal_first
    decimal-word decimal_word
    depth-at depth_at
    depth-from depth_from
    depth-root depth_root
    depth-up depth_up
    digit-plain digit_plain
    digits-after digits_after
    due-feed due_feed
    due-grown due_grown
    due-last due_last
    due-next due_next
    due-over due_over
    due-piece due_piece
    due-pieces due_pieces
    due-step due_step
    empty-reach empty_reach
    empty-size empty_size
    end-from end_from
    end-past end_past
    end-within end_within
    ended-sure ended_sure
    ends-inside ends_inside
    equal-past equal_past
    equal-sure equal_sure
    event-named event_named
    event-of event_of
    falls-on falls_on
    finished-kind finished_kind
    first-around first_around
    first-cuts first_cuts
    first-line first_line
    first-line-by first_line_by
    first-line-parts first_line_parts
    first_of first_some
    first-spaced first_spaced
    first-text first_text
    fixed-any fixed_any
    fixed-took fixed_took
    from-first-fewer from_first_fewer
    from-first-past from_first_past
    front-passes front_passes
    front-stands front_stands
    front-step front_step
    gap-passed gap_passed
    goes-event goes_event
    goes-line goes_line
    going-event going_event
    going-line going_line
    going-then going_then
    handed-cond handed_cond
    handed-grown handed_grown
    head-is head_is
    headed-any headed_any
    headed-took headed_took
    in_List in_list
    integer-read integer_read
    integer-sure integer_sure
    is-refused is_refused
    joined-total joined_total
    judged-over judged_over
    keyword-of keyword_of
    keyword-past keyword_past
    kind-named kind_named
    kind-numbered kind_numbered
    kind-of kind_of
    kind-sure kind_sure
    larger-reach larger_reach
    last-answer last_answer
    last-handed last_handed
    last-text last_text
    lead-below lead_below
    lead-here lead_here
    lead-of lead_of
    left-fits left_fits
    left-none left_none
    left-some left_some
    left-stand left_stand
    length-depths length_depths
    length-on length_on
    limit-of limit_of
    line-cut line_cut
    line-kind line_kind
    line-len line_len
    line-len-append line_len-append
    line-len-le line_len_le
    line-stops line_stops
    line-sure line_sure
    listed-first listed_first
    listed-laws listed_laws
    literal-of literal_of
    literal-plain literal_plain
    literal-read literal_read
    literal-word literal_word
    literal-words literal_words
    literals-after literals_after
    literals-stepped literals_stepped
    literals-sure literals_sure
    map-listOf map-option_to_list
    mode-for mode_for
    mode-past mode_past
    named-fewer named_fewer
    named-first named_first
    named-found named_found
    named-plain named_plain
    named-read named_read
    named-words named_words
    negated-past negated_past
    negated-sure negated_sure
    new-frame new_frame
    new-node new_node
    next-answer next_answer
    next-found next_found
    next-line next_line
    next-literal next_literal
    next-named next_named
    next-of-fewer next_of_fewer
    next-passed next_passed
    next-shown next_shown
    next-word-cuts next_word_cuts
    no-data no_data
    no-match no_match
    no-prefix no_prefix
    nodes-le nodes_le
    nodes-of nodes_of
    nodes-on nodes_on
    none-on none_on
    not-empty not_empty
    not-true-false not_true_false
    noted-after noted_after
    noted-all noted_all
    noted-is noted_is
    number-of-case number_of_case
    number-of-kind number_of_kind
    number-sure number_sure
    numbered-at numbered_at
    numbered-laws numbered_laws
    ok-kind ok_kind
    one-leads one_leads
    one-step one_step
    onto-plain onto_plain
    onto-word onto_word
    onward-found onward_found
    onward-none onward_none
    onward-step onward_step
    other-than other_than
    over-both over_both
    over-kept over_kept
    over-one over_one
    over-piece over_piece
    over-pieces over_pieces
    over-same over_same
    over-swap over_swap
    over-test over_test
    p-literal p_literal
    p-literal-at p_literal_at
    part-all part_all
    part-more part_more
    part-within part_within
    passed-kind passed_kind
    passed-put-first passed_put_first
    past-limit past_limit
    pending-in pending_in
    pending-kept pending_kept
    pending-over pending_over
    place-some place_some
    plain-from plain_from
    plain-whole plain_whole
    pop-named pop_named
    push-named push_named
    push-word push_word
    pushed-full pushed_full
    put-first-past put_first_past
    put-first-unplaced put_first_unplaced
    reach-weight reach_weight
    reads-lent reads_lent
    reads-next reads_next
    reason-of reason_of
    reason-plain reason_plain
    reason-read reason_read
    reason-sure reason_sure
    reason-told reason_told
    reason-words reason_words
    refused-by refused_by
    refused-past refused_past
    refused-text refused_text
    rest-is rest_is
    rest-step rest_step
    rest-stops rest_stops
    resumed-feed resumed_feed
    resumed-more resumed_more
    resumed-split resumed_split
    room-enough room_enough
    said-by said_by
    said-named said_named
    same-data same_data
    same-start-in same_start_in
    same-totals same_totals
    scope-named scope_named
    signed-minus signed_minus
    signed-numeral signed_numeral
    signed-plain signed_plain
    signed-written signed_numeral-written
    size-mod size_mod
    size-sum size_sum
    size-total size_total
    size-weight size_weight
    sizes-assoc sizes_assoc
    sizes-comm sizes_comm
    sizes-none sizes_none
    solver-past solver_past
    solver-sure solver_sure
    some-named some_named
    some-reason some_reason
    split-feed split_feed
    split-first split_first
    split-laws split_laws
    split-only split_only
    split-whole split_whole
    status-of status_of
    steady-event steady_event
    steady-kind steady_kind
    steady-line steady_line
    stripped-push stripped_push
    sweep-all sweep_all
    sweep-none sweep_none
    sweep-visit sweep_visit
    swept-visit swept_visit
    tail-is tail_is
    take-fewer take_fewer
    take-line take_line
    take-set-lt take-slice_set_lt
    tally-like tally_like
    tally-no tally_no
    tally-of tally_of
    tally-text tally_text
    tally-yes tally_yes
    test-more test_more
    test-or test_or
    then-any then_any
    then-any-at then_any_at
    then-any-of then_any_of
    then-past then_past
    then-past-of then_past_of
    theory-at theory_at
    theory-number theory_number
    theory-sure theory_sure
    through-on through_on
    to-root to_root
    took-past took_past
    total-exact total_exact
    turned-of turned_of
    turned-took turned_took
    under-cons under_cons
    unit-right unit_right
    unless-empty unless_empty
    unprefixed-onto unprefixed_onto
    unsigned-some unsigned_some
    value-ge value_ge
    variable-at variable_at
    variable-plain variable_plain
    variable-read variable_read
    variable-words variable_words
    way-from way_from
    way-laws way_laws
    way-root way_root
    weight-at weight_at
    whole-one whole_one
    whole-step whole_step
    within-no within_no
    within-term within_term
    within-yes within_yes
    word-passed word_passed
    words-by words_by
    words-stand words_stand
    written-so written_so
"""

NAMES = dict(line.split() for line in TABLE.split("\n") if line.strip())
TOKEN = re.compile(r"[^ \t\n(){}\[\],;.\"|λ→`]+")
SOURCE_NAME = re.compile(r"\b[a-z][a-z0-9]*(?:_[a-z0-9]+)+\b")
CLAUSE = re.compile(r"^\s*(ghost\b|ensures\b|requires\b|pub ghost\b)")


def outside_strings(line, change):
    parts = re.split(r'("(?:[^"\\]|\\.)*")', line)
    return "".join(p if p.startswith('"') else change(p) for p in parts)


def own_names(text):
    return TOKEN.sub(lambda m: NAMES.get(m.group(), m.group()), text)


def main():
    sources = glob.glob("crates/*/src/**/*.rt", recursive=True)
    code = "".join(open(path).read() for path in sources)
    made = {name.replace("_", "-"): name for name in SOURCE_NAME.findall(code)}
    made.update({"overflow-add": "overflow_add"})
    longest_first = sorted(made, key=len, reverse=True)

    def source_names(text):
        def token(match):
            word = match.group()
            for dashed in longest_first:
                word = re.sub(r"(?<![a-z0-9_'])" + re.escape(dashed) + r"(?![a-z0-9_'])", made[dashed], word)
            return word
        return TOKEN.sub(token, text)

    for path in glob.glob("crates/*/specs/**/*.antt", recursive=True) + glob.glob("crates/*/proofs/**/*.antt", recursive=True):
        proof_of_function = "/proofs/" in path and path.rsplit("/", 1)[1] in ("Answers.antt", "Invariants.antt")
        lines = []
        for line in open(path).read().split("\n"):
            line = outside_strings(line, own_names)
            if proof_of_function and not line.startswith("use Rattle.std") and not line.lstrip().startswith("--"):
                line = outside_strings(line, source_names)
            lines.append(line)
        open(path, "w").write("\n".join(lines))
    for path in sources:
        lines = open(path).read().split("\n")
        lines = [outside_strings(line, own_names) if CLAUSE.match(line) else line for line in lines]
        open(path, "w").write("\n".join(lines))


main()
