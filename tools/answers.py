"""The answers of a probe beside those of a reference program."""

import collections

SHOWN = 5


def compare(told, answers, outcome_of):
    """Counts what is told, by `outcome_of` of a line and what it has to give, and shows the first answers that are others.

    `told` has pairs of a line and what it has to give. Where the line is one that isn't counted, its outcome is None."""
    if len(answers) != len(told):
        raise SystemExit(f"{len(answers)} answers to {len(told)} lines")
    outcomes = collections.Counter()
    wrong = 0
    for (line, wanted), answer in zip(told, answers):
        outcome = outcome_of(line, wanted)
        if outcome is not None:
            outcomes[outcome] += 1
        if answer != wanted:
            wrong += 1
            if wrong <= SHOWN:
                print(f"{line[:400]}\n  gives       {answer[:600]}\n  and not     {wanted[:600]}")
    return outcomes, wrong


def tell(outcomes, summary, wrong):
    """Prints the outcomes and the last line, and ends the run with status 1 where an answer is another."""
    for (what, outcome), times in sorted(outcomes.items()):
        print(f"{what:10} {outcome:5} {times}")
    print(summary)
    if wrong:
        raise SystemExit(1)
