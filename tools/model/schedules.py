"""Who has the next turn: round robin, a list and then round robin, a generator's numbers, or whoever of some workers
comes first."""
from random import SystemRandom

from places import MASK

FACTOR, SUM, SHIFT = 6364136223846793005, 1442695040888963407, 33
MOST_TURNS = 64


def robin(run):
    last = -1
    while live := run.live():
        last = next((number for number in live if number > last), live[0])
        run.turn(last)


def listed(run, turns):
    for number in turns:
        run.turn(number)
    robin(run)


def mix(run, number):
    while live := run.live():
        number = number * FACTOR + SUM & MASK
        run.turn(live[(number >> SHIFT) % len(live)])


def work(run, threads, turns):
    """The turns of a worker in a round: each of its threads has up to so many, one thread after the other. Each is told
    before it is made."""
    for number in threads:
        for _ in range(turns):
            if run.threads[number].end is not None:
                break
            yield
            run.turn(number)


def beside_each_other(run, workers):
    """In a round, worker W gives each live thread T with T mod WORKERS = W its turns. Which worker comes first isn't
    stated, so the dice say it."""
    dice = SystemRandom()
    while live := run.live():
        works = [work(run, [number for number in live if number % workers == worker], MOST_TURNS)
                 for worker in range(workers)]
        while works:
            one = dice.choice(works)
            for _ in range(dice.choice((1, 2, 16, 64))):
                if next(one, works) is works:
                    works.remove(one)
                    break


def play(run):
    settings = run.settings
    if settings.schedule is not None:
        listed(run, settings.schedule)
    elif settings.mix is not None:
        mix(run, settings.mix)
    elif settings.workers is not None:
        beside_each_other(run, settings.workers)
    else:
        robin(run)
