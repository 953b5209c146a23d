"""Scripts of rehearsals, as lists of lines, for the benches of `rehearse`."""

STORY = '01020301030204'


def in_hand(numbers):
    """Three members: each number is offered, promised and voted for by a majority, and no vote comes back."""
    lines, sent = ['members 3'], 0
    for number in range(1, numbers + 1):
        # two Prepares, a Promise, two Accepts and the two Accepteds of the proposer, the two of its voter
        lines += [f'offer 1 {number} {STORY}', f'deliver {sent + 1}', f'deliver {sent + 3}', f'deliver {sent + 4}']
        sent += 9
    return lines


def released(numbers):
    """The same, and the vote comes back."""
    lines, sent = ['members 3'], 0
    for number in range(1, numbers + 1):
        lines += [f'offer 1 {number} {STORY}']
        lines += [f'deliver {sent + k}' for k in (1, 3, 4, 6, 8)]
        sent += 9
    return lines


def heard_again(times):
    """One vote of another member comes to a third one over and over."""
    return ['members 3', f'offer 1 12 {STORY}', 'deliver 1', 'deliver 3'] + ['deliver 7'] * times


def long_tapes(numbers):
    """Fifteen members: each number's tape has as many frames as a tape has at most, and a majority votes for it."""
    tape = (bytes([1, 2, 3, 1, 3, 2, 4]) * 585 + b'\0').hex()
    lines, sent = ['members 15'], 0
    for number in range(1, numbers + 1):
        lines += [f'offer 1 {number} {tape}']
        # seven of the 14 Prepares, their Promises, and seven of the 14 Accepts, behind which 14 Accepteds were sent
        lines += [f'deliver {sent + first + k}' for first in (0, 14, 21) for k in range(1, 8)]
        sent += 14 + 7 + 28 + 7 * 14
    return lines
