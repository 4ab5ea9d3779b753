#!/usr/bin/env python3
"""Writes large schedules of editors that do more than type, each within the limits that docs/FORMATS.md names.

    python3 editors.py OUTDIR [--only r,s,..] [--seed S]

r-formatter       8 to 24 clients whose editor formats: behind each edit of some characters the same client replaces the whole line, of 40 to 100 characters
s-rename          4 to 16 clients in a document of 30,000 to 40,000 characters: most type; some replace a word by a shorter one at 100 to 300 places at once, and
                  half of those undo that with the next edit
t-branches        2 clients, each of which makes 400 to 1,200 edits offline all over 30,000 to 40,000 characters, before each receives the other's in one merge; so
                  again until enough was inserted; 1 to 4 others only receive
u-composing       4 to 16 clients that write Japanese, Chinese, Korean or English all over 2,000 to 40,000 such characters. An input method shows each word while
                  it is composed: at each key the editor replaces the last 1 to 12 characters, some editors only what differs; then by ideographs, again for each
                  candidate. Some words are given up
v-meeting         the notes of a meeting of 12 to 48 clients, most of whom join late: at the same moments some of them write a line each at the end of the same point
                  of the agenda, letter by letter, correct words, and undo and redo whole lines

u and v go by the clock: a key each 60 to 400 ms, pauses of seconds, messages that take 20 ms to 1.6 s or stall for seconds, so that edits, takes and deliveries come
in bursts. At the end all has arrived.

Lines of r-formatter lie at even distances, since nothing here knows a document's text. Lengths, counts and shares are drawn from the seed.
"""
import argparse
import os
import random

from storms import INSERTED, LETTERS, MOST, Sim, changed_at, one_place, session, text
from typists import Typists


def bench_formatter(r):
    s = Sim(r.randint(8, 24), text(r, r.randint(10_000, 40_000)))
    width = r.randint(40, 100)

    def change(c):
        at = r.randint(0, s.len[c])
        one_place(s, c, at, 0, text(r, r.randint(1, 4)))
        start = at // width * width
        gone = min(width, s.len[c] - start)
        one_place(s, c, start, gone, text(r, max(1, gone + r.randint(-4, 2))))
    return session(r, s, change, 110)


def bench_rename(r):
    s = Sim(r.randint(4, 16), text(r, r.randint(30_000, 40_000)))
    share, word, back = r.uniform(.03, .15), r.randint(4, 9), [None] * s.n

    def change(c):
        places, back[c] = back[c], None
        if places and places[-1] + 1 <= s.len[c]:
            changed_at(s, c, [(at, 1, text(r, word)) for at in places])
        elif r.random() < share and s.len[c] > 20_000:
            count = r.randint(100, 300)
            spots = [at * (word + 1) for at in sorted(r.sample(range(s.len[c] // (word + 1)), count))]
            changed_at(s, c, [(at, word, r.choice(LETTERS)) for at in spots])
            # To undo it inserts much more, so only some clients do, and only at some places.
            if r.random() < .5 and s.count[c] < INSERTED // 2:
                back[c] = [at - i * (word - 1) for i, at in enumerate(spots)]
        else:
            one_place(s, c, r.randint(0, s.len[c]), 0, text(r, r.randint(1, 3)))
    return session(r, s, change, 300 * 9 + 3)


def bench_branches(r):
    s = Sim(2 + r.randint(1, 4), text(r, r.randint(30_000, 40_000)))
    jumps = r.uniform(.05, .5)
    while s.instrs() < MOST - 4000 and max(s.count) <= INSERTED - 2500:
        for c in 0, 1:
            at = r.randint(0, s.len[c])
            for _ in range(r.randint(400, 1200)):
                if r.random() < jumps:
                    at = r.randint(0, s.len[c])
                back = at > 0 and r.random() < .3
                letters = '' if back else text(r, r.randint(1, 2))
                one_place(s, c, at - back, int(back), letters)
                at += len(letters) - back
        for _ in 0, 1:  # what is outstanding, then the buffer
            for c in 0, 1:
                if s.msg[c]:
                    s.take(c)
            for c in range(s.n):
                while s.backlog(c):
                    s.down(c)
    return s


# What input methods write: letters of syllables, ideographs, syllables of Korean, and what lies beyond U+FFFF.
KANA, HAN, HANGUL, EMOJI = (''.join(map(chr, it)) for it in (range(0x3041, 0x3094), range(0x4E00, 0x9FA0), range(0xAC00, 0xD7A4), range(0x1F600, 0x1F650)))


def drawn(r, letters, most):
    """One to so many of these letters."""
    return ''.join(r.choices(letters, k=r.randint(1, most)))


def prefixes(word):
    return [word[:end] for end in range(1, len(word) + 1)]


def japanese(r):
    """What is shown of a word: each syllable first as a letter, then candidates."""
    word = drawn(r, KANA, 6)
    typed = [shown for it in prefixes(word) for shown in (it[:-1] + r.choice('kstnhmyrw'), it)]
    return typed + [drawn(r, HAN, len(word)) for _ in range(r.choice((0, 1, 1, 2, 5)))]


def chinese(r):
    return prefixes(drawn(r, LETTERS.strip(), 12)) + [drawn(r, HAN, 4)]


def korean(r):
    """One syllable, which each key changes."""
    return r.choices(HANGUL, k=r.randint(2, 4))


def english(r):
    return prefixes(drawn(r, LETTERS, 8))


def composing(r, s, c, jumps, pause):
    """A client that composes words."""
    words, differs = r.choice((japanese, chinese, korean, english)), r.random() < .5
    while True:
        if r.random() < jumps:
            s.at[c] = r.randint(0, s.len[c])
        shown = ''
        for comes in words(r):
            kept = len(os.path.commonprefix((shown, comes))) if differs else 0
            s.put(c, len(shown) - kept, comes[kept:])
            shown = comes
            yield r.uniform(.06, .4)
        if r.random() < .05:
            s.put(c, len(shown), r.choice(('', r.choice(EMOJI))))
        yield r.expovariate(1 / pause) if r.random() < .2 else r.uniform(.06, .4)


def bench_composing(r):
    start = ''.join(drawn(r, r.choice((KANA, HAN, HANGUL, LETTERS)), 12) for _ in range(r.randint(400, 6000)))
    s = Typists(r, r.randint(4, 16), start[:40_000], r.uniform(.05, .8))
    jumps, pause = r.uniform(.02, .2), r.uniform(1, 10)
    s.at = [r.randint(0, length) for length in s.len]
    return s.play([composing(r, s, c, jumps, pause) for c in range(s.n)])


def line_of_notes(r, s, c, corrects):
    """A client writes a line at its caret, letter by letter, and corrects words as it goes. Returns how many characters it then has."""
    before, gone, word = s.count[c], 0, 0
    for key in '\n- ' + text(r, r.randint(5, 60)):
        s.put(c, 0, key)
        word = 0 if key.isspace() else word + 1
        yield r.uniform(.06, .3)
        if word > 2 and r.random() < corrects:
            s.put(c, word, text(r, r.randint(1, 8)))
            gone, word = gone + word, 0
            yield r.uniform(.1, .4)
    return s.count[c] - before - gone


def taking_notes(r, s, c, every, now_at, corrects):
    """A client at a meeting, which writes at some of the moments, `every` so many seconds. `now_at` says how far from the end of the document."""
    seldom, undoes = r.randint(1, 12), r.uniform(0, .3)
    while True:
        yield (s.now // every + r.randint(1, seldom)) * every + r.expovariate(.5) - s.now
        s.at[c] = s.len[c] - now_at()
        written = yield from line_of_notes(r, s, c, corrects)
        while r.random() < undoes:
            s.put(c, written, '')
            yield r.uniform(.3, 2)
            written = r.randint(written // 2 + 1, written)
            s.put(c, 0, text(r, written))
            yield r.uniform(.3, 2)


def bench_meeting(r):
    points = ['\n' + text(r, r.randint(10, 80)) for _ in range(r.randint(6, 20))]
    start = text(r, r.randint(0, 20_000)) + ''.join(points)
    s = Typists(r, r.randint(12, 48), start, r.uniform(.05, .8), r.randint(1, 4))
    every, corrects, moments = r.uniform(5, 20), r.uniform(0, .04), r.randint(1, 5)

    def now_at():
        return sum(map(len, points[int(s.now / every / moments) + 1:]))

    people = [taking_notes(r, s, c, every, now_at, corrects) for c in range(s.n)]
    return s.play(people, every * r.uniform(1, 8))


BENCHES = {'r-formatter': bench_formatter, 's-rename': bench_rename, 't-branches': bench_branches, 'u-composing': bench_composing, 'v-meeting': bench_meeting}
ALL = ','.join(name[0] for name in BENCHES)


def main():
    words = argparse.ArgumentParser()
    words.add_argument('outdir')
    words.add_argument('--only', default=ALL)
    words.add_argument('--seed', default='1')
    words = words.parse_args()
    os.makedirs(words.outdir, exist_ok=True)
    for name, bench in BENCHES.items():
        if name[0] not in words.only.split(','):
            continue
        s = bench(random.Random('bench/%s/%s' % (name[0], words.seed)))
        with open(os.path.join(words.outdir, name + '.txt'), 'w', encoding='utf-8') as out:
            out.write(s.text())
        print('%-14s clients %d instructions %d log %d server %d most inserted %d' % (name, s.n, s.instrs(), len(s.log), s.server_len, max(s.count)), flush=True)


if __name__ == '__main__':
    main()
