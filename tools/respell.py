#!/usr/bin/env python3
"""respell: brings the repository's own definitions and lemmas to the spelling of today's Rattle.

Run once at the top, after the kit's own script for older repositories: words in snake case, facts and records in camel
case. It changes the .antt files of specs/ and proofs/ and the .rt files of src/, in comments only what stands between
backticks, and refuses to run where a new name stands already, but for those of SHARED, which were looked at one by one.
"""
import glob
import re
import sys

# each name as it was, and as it is to be
TABLE = """
Adds-up=AddsUp All-can-be-followed=AllCanBeFollowed All-open=AllOpen Begins-after=BeginsAfter Best-alone=BestAlone
Best-gain=BestGain Best-plan-worth=BestPlanWorth Best-run=BestRun Best-worth=BestWorth Done-says=DoneSays
Each-ends=EachEnds Each-is-night=EachIsNight Ends-before=EndsBefore Filled-to=FilledTo First-clash=FirstClash
First-closed=FirstClosed First-free=FirstFree First-from=FirstFrom First-overfull=FirstOverfull Fits-one=FitsOne
Follows-all=FollowsAll Follows-before=FollowsBefore Gain-answered=GainAnswered Gain-laws=GainLaws
Gains-most=GainsMost Gone-through=GoneThrough Good-plan=GoodPlan Has-best=HasBest Held-by=HeldBy In-reach=InReach
In-time=InTime Is-first=IsFirst More-dishes=MoreDishes Move-laws=MoveLaws Night-of=NightOf No-less=NoLess
None-free=NoneFree One-more=OneMore One-verdict=OneVerdict Place-is-first=PlaceIsFirst Plans-are-runs=PlansAreRuns
Right-from=RightFrom Side-by-side=SideBySide Sound-at=SoundAt Sound-numbers=SoundNumbers
Station-is-night=StationIsNight Taken-if-checked=TakenIfChecked Test-is-rule=TestIsRule
Touching-passes=TouchingPasses True-verdict=TrueVerdict Wrong-with=WrongWith a-gain-each=a_gain_each
a-place-each=a_place_each absent-unfit=absent_unfit adds-up-more=adds_up_more adds-up-none=adds_up_none
after-following=after_following all-can-be-followed=all_can_be_followed all-given=all_given
all-in-range=all_in_range all-worth=all_worth all-zero=all_zero alone-follow=alone_follow alone-skip=alone_skip
among-at-least=among_at_least among-at-most=among_at_most among-more=among_more an-entry-each=an_entry_each
and-then-some=and_then_some at-most-both=at_most_both before-next=before_next best-fine=best_fine
bound-hopeless=bound_hopeless busiest-from=busiest_from busy-more=busy_more by-decision=by_decision
by-step=by_step came-all=came_all came-front=came_front came-more=came_more can-follow=can_follow
checked-from=checked_from checked-says=checked_says checked-taken=checked_taken clash-less=clash_less
clash-more=clash_more comes-later=comes_later crowd-is-busy=crowd_is_busy crowd-le-busy=crowd_le_busy
crowd-none=crowd_none crowd-one=crowd_one crowd-some=crowd_some decide-from=decide_from decide-says=decide_says
dishes-ok=dishes_ok drop-up-to=drop-up_to each-is-night=each_is_night earlier-one=earlier_one
enough-dishes=enough_dishes entry-able=entry_able entry-falls=entry_falls entry-unable=entry_unable
few-dishes=few_dishes few-dishes-from-checked=few_dishes_from_checked few-passes=few_passes fine-along=fine_along
fine-best=fine_best fine-came=fine_came fine-run=fine_run fine-start=fine_start fine-step=fine_step
first-at-fault=first_at_fault first-failing=first_failing first-fault=first_fault first-in-front=first_in_front
first-number=first_number fits-drop=fits_drop fits-from=fits_from fits-idle=fits_idle fits-one-from=fits_one_from
fits-one-says=fits_one_says fits-parts=fits_parts fits-says=fits_says fits-with=fits_with
fits-without=fits_without follow-all=follow_all follow-at=follow_at follow-from-good=follow_from_good
follow-gain=follow_gain follow-next=follow_next follow-second=follow_second follow-until=follow_until
followed-before=followed_before followed-within=followed_within follows-gain=follows_gain free-again=free_again
free-as-before=free_as_before free-at=free_at free-both=free_both free-for=free_for free-from=free_from
free-from-last=free_from_last free-front=free_front free-later=free_later free-or-held=free_or_held
free-says=free_says free-with=free_with free-without=free_without front-clear=front_clear front-more=front_more
gain-answered=gain_answered gain-bound=gain_bound gain-fits=gain_fits gain-followed=gain_followed
gain-idle=gain_idle gain-le-sum=gain_le_sum gain-more=gain_more gain-none=gain_none gain-of=gain_of
gain-other=gain_other gain-skip=gain_skip gained-by=gained_by gained-worth=gained_worth gains-able=gains_able
gains-from=gains_from gains-less=gains_less gains-none=gains_none gains-unable=gains_unable
getD-passes-in=get_or-passes_in give-one=give_one gone-through=gone_through good-from-follow=good_from_follow
good-runs=good_runs has-best=has_best held-each=held_each held-or-not=held_or_not hold-apart=hold_apart
idle-fits=idle_fits idle-run=idle_run if-any=if_any improved-by=improved_by improved-more=improved_more
improved-none=improved_none in-fours=in_fours in-front=in_front in-gains=in_gains in-range=in_range
in-range-ends=in_range_ends in-time=in_time in-time-from-checked=in_time_from_checked in-time-tail=in_time_tail
is-room=is_room later-clear=later_clear leads-append=leads_append leads-at=leads_at leads-first=leads_first
leads-follow=leads_follow leads-here=leads_here leads-push=leads_push leads-skip=leads_skip led-best=led_best
led-follow=led_follow led-held=led_held led-skip=led_skip led-start=led_start led-turned=led_turned
length-passes-in=length-passes_in list-checked=list_checked list-refused=list_refused long-take=long_take
mapped-some=mapped_some more-dishes=more_dishes most-passes=most_passes night-of=night_of
night-of-station=night_of_station night-verdict=night_verdict no-clash=no_clash no-fault=no_fault
no-fewer=no_fewer no-less-among=no_less_among no-less-one=no_less_one no-pass=no_pass no-worse=no_worse
none-at-fault=none_at_fault none-followed=none_followed none-given=none_given none-past-8=none_past_8
nth-is=nth_is one-after=one_after one-after-sym=one_after_sym one-dish=one_dish one-fault=one_fault
one-first=one_first one-first-clash=one_first_clash one-most=one_most one-verdict=one_verdict
only-followed=only_followed only-idle=only_idle other-bound=other_bound other-fine=other_fine
over-after=over_after pass-at=pass_at passes-in=passes_in place-is-first=place_is_first
planned-alone=planned_alone planned-from-gain=planned_from_gain ranges-from=ranges_from ranges-say=ranges_say
reach-back=reach_back reach-on=reach_on reach-past=reach_past refused-anyway=refused_anyway
refused-with-room=refused_with_room rest-good=rest_good right-more=right_more room-is=room_is room-ok=room_ok
room-refusal=room_refusal room-refused=room_refused run-follows=run_follows same-dish=same_dish
same-front=same_front same-passes=same_passes same-station=same_station says-i=says_i says-j=says_j says-k=says_k
says-new=says_new since-a-begin=since_a_begin since-idle=since_idle since-last=since_last since-later=since_later
skip-gain=skip_gain skips-gain=skips_gain some-or-all=some_or_all sorted-from=sorted_from sorted-says=sorted_says
sound-from=sound_from sound-here=sound_here sound-says=sound_says sound-there=sound_there
station-is-night=station_is_night station-of=station_of station-ok=station_ok station-refused=station_refused
still-unbeaten=still_unbeaten sum-later=sum_later taken-checked=taken_checked taken-if-checked=taken_if_checked
tally-laws=tally_laws tally-leads=tally_leads tally-of-way=tally_of_way tally-start=tally_start
tally-step=tally_step test-is-rule=test_is_rule the-worths=the_worths this-gain=this_gain those-i=those_i
those-j=those_j too-near=too_near touching-passes=touching_passes tried-all=tried_all tried-more=tried_more
tried-none=tried_none tried-refused=tried_refused turned-away=turned_away turned-to=turned_to
turning-ok=turning_ok turns-of=turns_of unbeaten-end=unbeaten_end until-more=until_more way-first=way_first
way-of-tally=way_of_tally with-gain=with_gain within-free=within_free worth-at-most=worth_at_most
worth-both=worth_both worth-each=worth_each worth-gained=worth_gained worth-more=worth_more worth-none=worth_none
worth-of=worth_of worth-with=worth_with worth-without=worth_without worths-fit=worths_fit
worths-small=worths_small wrong-unfit=wrong_unfit wrong-unsound=wrong_unsound
"""

NAMES = dict(pair.split('=') for pair in TABLE.split())

# new names that stood already, in some file, and may fall together with a definition, a lemma or a local name: labels of
# clauses (a proof names them as fields), and functions and tests of src/ (another namespace than definitions)
SHARED = {'a_place_each', 'few_dishes', 'in_time', 'one_after', 'same_passes', 'touching_passes', 'turned_away', 'worth_of',
          'a_gain_each', 'an_entry_each', 'one_dish', 'the_worths', 'few_passes', 'best_fine', 'other_fine', 'same_front'}

# what stands on either side of a name belongs to none
WORD = r"[\w\-'′₀-₉]"
OLD = re.compile(rf"(?<!{WORD})({'|'.join(sorted(map(re.escape, NAMES), key=len, reverse=True))})(?!{WORD})")
NEW = re.compile(rf"(?<!{WORD})({'|'.join(sorted(map(re.escape, set(NAMES.values()) - SHARED), key=len, reverse=True))})(?!{WORD})")


def parts(line, mark):
    """A line's code and its comment."""
    at = line.find(mark)
    return (line, '') if at < 0 else (line[:at], line[at:])


def respelled(line, mark):
    code, comment = parts(line, mark)
    code = OLD.sub(lambda m: NAMES[m.group(1)], code)
    return code + re.sub(r'`[^`]*`', lambda q: OLD.sub(lambda m: NAMES[m.group(1)], q.group(0)), comment)


def main():
    files = [(f, '--') for d in ('specs', 'proofs') for f in glob.glob(f'crates/*/{d}/**/*.antt', recursive=True)]
    files += [(f, '//') for f in glob.glob('crates/*/src/**/*.rt', recursive=True)]
    texts = {f: open(f, encoding='utf-8').read() for f, _ in files}
    for f, mark in files:
        for i, line in enumerate(texts[f].split('\n')):
            taken = NEW.search(parts(line, mark)[0])
            if taken:
                sys.exit(f'{f}:{i + 1}: {taken.group(1)} stands already')
    for f, mark in files:
        text = '\n'.join(respelled(line, mark) for line in texts[f].split('\n'))
        if text != texts[f]:
            with open(f, 'w', encoding='utf-8') as out:
                out.write(text)


main()
