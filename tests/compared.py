"""Cases made at random, each compared with what is wanted of it, several at once."""
import argparse
import concurrent.futures


def run(description, option, count, make, fault):
    """Makes cases by a seed and as many as the option says, prints the seed, what is wrong with each
    and `N passed, M failed`, and answers the exit status. `fault` gets the command and a case, and
    answers None where nothing is wrong."""
    words = argparse.ArgumentParser(description=description, formatter_class=argparse.RawTextHelpFormatter)
    words.add_argument('command', nargs='+')
    words.add_argument('--' + option, type=int, default=count, dest='count')
    words.add_argument('--seed', type=int, default=1)
    given = words.parse_args()
    print(f'seed {given.seed}')
    cases = make(given.seed, given.count)
    failed = 0
    with concurrent.futures.ThreadPoolExecutor() as pool:
        for case, wrong in zip(cases, pool.map(lambda case: fault(given.command, case), cases)):
            if wrong:
                failed += 1
                print(f'{case!r}: {wrong}')
    print(f'{len(cases) - failed} passed, {failed} failed')
    return 1 if failed else 0
