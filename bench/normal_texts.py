#!/usr/bin/env python3
"""Generated sets beside their normal texts: what `normal` puts, and what both print over generated traces.

A set is drawn as items; each is written in any spelling and, apart from that, in its normal one. The player has to put
the normal one, print the same over a trace for both, and put it once more for itself.

    python3 bench/normal_texts.py crates/ra_player/out/ra_player 300
"""
import os
import random
import subprocess
import sys
import tempfile

SIZES = "MNOPQRSTLUHK IWJXG"
ADDRESSES = list(range(0, 24)) + [0x3e, 0x12345]

def either(r, text):
    return ''.join(c.upper() if r.random() < .5 else c.lower() for c in text)

def number(r, n):
    return '0' * r.choice([0, 0, 0, 1, 3]) + str(n)

def operand(r):
    """Any spelling, and the canonical one."""
    k = r.random()
    if k < .06:
        return '{recall}', '{recall}'
    if k < .4:
        n = r.choice([0, 0, 1, 1, 2, 3, 5, 255, 256, 65535, 4294967295, 99999999999, -1])
        value = min(n, 4294967295) if n >= 0 else (n % 2**32)
        if n >= 0 and r.random() < .4:
            return r.choice(['', either(r, 'v')]) + either(r, 'h') + '0' * r.choice([0, 2]) + either(r, '%x' % n), str(value)
        sign = '-' if n < 0 else r.choice(['', '', '+'])
        return r.choice(['', either(r, 'v')]) + sign + number(r, abs(n)), str(value)
    kind = r.choice(['', '', '', 'd', 'p', 'b', '~'])
    size = r.choice(SIZES)
    a = r.choice(ADDRESSES)
    free = either(r, size) if size != ' ' else r.choice([' ', ''])
    return either(r, kind) + '0' + either(r, 'x') + free + '0' * r.choice([0, 1, 4]) + either(r, '%x' % a), kind + '0x' + size + '%04x' % a

COMPARISONS = ['=', '=', '=', '!=', '<', '<=', '>', '>=']
ARITHMETIC = '*/&^%+-'

def target(r, n):
    if n == 0:
        return r.choice(['', '', '.0.', '(00)']), ''
    return r.choice(['.%s.', '(%s)']) % number(r, n), '.%d.' % n

def condition(r, flag, value=False):
    left, left_normal = operand(r)
    head, head_normal = (either(r, flag) + ':', flag + ':') if flag else ('', '')
    if flag in 'ABIK' and flag:
        k = r.random()
        if k < .4:
            return head + left, head_normal + left_normal
        right, right_normal = operand(r)
        count, _ = target(r, r.choice([0, 0, 3]))
        if k < .55:
            op = r.choice(COMPARISONS + ['=='])
            return head + left + op + right + count, head_normal + left_normal
        op = r.choice(ARITHMETIC)
        return head + left + op + right + count, head_normal + left_normal + op + right_normal
    if value and flag in ('M', 'G') and r.random() < .5:
        return head + left, head_normal + left_normal
    right, right_normal = operand(r)
    op = r.choice(COMPARISONS)
    free = r.choice(['=', '==']) if op == '=' else op
    count, count_normal = target(r, r.choice([0, 0, 0, 0, 1, 2, 3]))
    return head + left + free + right + count, head_normal + left_normal + op + right_normal + count_normal

def join(pairs, separator):
    return separator.join(a for a, _ in pairs), separator.join(b for _, b in pairs)

def group(r, most=4):
    flags = ['', '', '', '', 'P', 'R', 'A', 'B', 'C', 'D', 'N', 'O', 'I', 'T', 'Z', 'K', 'M', 'Q', 'G']
    pairs = [condition(r, r.choice(flags)) for _ in range(r.randint(0, most))]
    return join(pairs, '_')

def trigger(r, easy=.3):
    if r.random() < easy:
        a = r.choice(ADDRESSES[:12])
        n = r.choice([0, 1, 2])
        return '0xh%x=%d' % (a, n), '0xH%04x=%d' % (a, n)
    pairs = [group(r) for _ in range(r.choice([1, 1, 1, 2, 3]))]
    free = pairs[0][0] + ''.join(r.choice('sS') + a for a, _ in pairs[1:])
    return free, 'S'.join(b for _, b in pairs)

def legacy(r):
    pairs = []
    for _ in range(r.randint(1, 4)):
        left, left_normal = operand(r)
        factor, factor_normal = '', ''
        if r.random() < .5:
            right, right_normal = operand(r)
            factor, factor_normal = '*' + right, '*' + right_normal
        pairs.append((left + factor, 'A:' + left_normal + factor_normal))
    free, normal = join(pairs, '_')
    return free, normal + '_M:0', len(pairs) + 1

def measured(r):
    flags = ['P', 'R', 'A', 'B', 'C', 'D', 'N', 'O', 'I', 'Z', 'K', 'Q', 'M']
    pairs = [condition(r, r.choice(flags), True) for _ in range(r.randint(0, 3))]
    pairs.append(condition(r, r.choice('MMG'), True))
    return join(pairs, '_') + (len(pairs),)

def value(r):
    parts = [legacy(r) if r.random() < .6 else measured(r) for _ in range(r.choice([1, 1, 2, 3]))]
    legacies = sum(1 for p in parts if p[1].endswith('_M:0') and not p[0].upper().endswith('M:0'))
    return '$'.join(p[0] for p in parts), '$'.join(p[1] for p in parts), legacies

FORMATS = {'VALUE': 'VALUE', 'SCORE': 'SCORE', 'POINTS': 'SCORE', 'OTHER': 'SCORE', 'TIME': 'FRAMES', 'FRAMES': 'FRAMES', 'SECS': 'SECS',
    'TIMESECS': 'SECS', 'MILLISECS': 'MILLISECS', 'MINUTES': 'MINUTES', 'SECS_AS_MINS': 'SECS_AS_MINS', 'UNSIGNED': 'UNSIGNED', 'TENS': 'TENS',
    'HUNDREDS': 'HUNDREDS', 'THOUSANDS': 'THOUSANDS', 'FIXED1': 'FIXED1', 'FIXED3': 'FIXED3', 'FLOAT1': 'FLOAT1', 'FLOAT6': 'FLOAT6',
    'FLOAT7': 'VALUE', 'score': 'VALUE', 'Any\tname': 'VALUE'}

def board(r):
    fields = [(tag,) + trigger(r, .6) for tag in ('STA', 'CAN', 'SUB')]
    if r.random() < .5:
        fields[1] = ('CAN', '0==1', '0=1')
    free_value, normal_value, legacies = value(r)
    fields.append(('VAL', free_value, normal_value))
    if r.random() < .4:
        free_value, normal_value, more = value(r)
        legacies += more
        fields.append(('PRO', free_value, normal_value))
    normal = '::'.join(tag + ':' + n for tag, _, n in fields)
    r.shuffle(fields)
    return '::'.join(either(r, tag) + ':' + f for tag, f, _ in fields), normal, legacies

def drawn_set(r):
    free, normal, ids, legacies = [], [], set(), 0
    for _ in range(r.randint(0, 6)):
        if r.random() < .4:
            free.append(r.choice(['', '# a note', '#P', '# A 1 0=1']))
        letter = r.choice('AAL')
        n = r.choice([0, 1, 2, 3, 4, 5, 6, 7, 8, 4294967295])
        if (letter, n) in ids:
            continue
        ids.add((letter, n))
        if letter == 'A':
            a, b = trigger(r)
            free.append('A %d %s' % (n, a)); normal.append('A %d %s' % (n, b))
        else:
            name = r.choice(sorted(FORMATS))
            a, b, more = board(r)
            legacies += more
            free.append('L %d %s %s' % (n, name, a)); normal.append('L %d %s %s' % (n, FORMATS[name], b))
    ends = [r.choice(['\n', '\n', '\r\n']) for _ in free]
    script = ''
    if r.random() < .4:
        end = r.choice(['\n', '\r\n'])
        script = 'P' + end + 'Display:' + end + '?%s?now @Number(%s)' % (trigger(r)[0], value(r)[0]) + end + '@Number(0xh0001_v2)' + end
    elif ends and r.random() < .3:
        ends[-1] = ''
    text = ''.join(a + b for a, b in zip(free, ends)) + script
    return text.encode(), (''.join(n + '\n' for n in normal) + script).encode(), legacies

def drawn_trace(r):
    size = 64
    out = b'RATR\x01' + size.to_bytes(4, 'little')
    saved = set()
    for _ in range(r.randint(20, 60)):
        for _ in range(r.randint(0, 3)):
            n = r.randint(1, 4)
            at = r.randint(0, 24)
            data = bytes(r.choice([0, 0, 1, 1, 2, 3, 5, 255, r.randrange(256)]) for _ in range(n))
            out += b'W' + at.to_bytes(4, 'little') + n.to_bytes(2, 'little') + data
        out += b'F'
        if r.random() < .2: out += b'P'
        if r.random() < .1:
            slot = r.randrange(16); saved.add(slot); out += b'S' + bytes([slot])
        if saved and r.random() < .07: out += b'R' + bytes([r.choice(sorted(saved))])
    return out + b'E'

def call(player, *words):
    p = subprocess.run([player, *words], stdout=subprocess.PIPE, stderr=subprocess.PIPE, timeout=60)
    return p.returncode, p.stdout

def main(player, count):
    r = random.Random(46)
    d = tempfile.mkdtemp()
    at = lambda name: os.path.join(d, name)
    figures = dict(sets=0, refused=0, wrong_text=0, other_print=0, not_itself=0, with_legacy=0, lines=0, with_lines=0)
    for number in range(count):
        text, normal, legacies = drawn_set(r)
        trace = drawn_trace(r)
        open(at('s'), 'wb').write(text); open(at('t'), 'wb').write(trace)
        for name in ('n', 'm'):
            if os.path.exists(at(name)): os.remove(at(name))
        figures['sets'] += 1
        status, line = call(player, 'normal', at('s'), at('n'))
        if status != 0:
            figures['refused'] += 1; print('refused', number, status, line, text); continue
        found = open(at('n'), 'rb').read()
        if found != normal or not line.startswith(b'normal bytes %d conditions ' % len(normal)):
            figures['wrong_text'] += 1; print('text', number, line, text, found, normal)
        first, second = call(player, 'run', at('s'), at('t')), call(player, 'run', at('n'), at('t'))
        if first != second or first[0] != 0:
            figures['other_print'] += 1; print('print', number, first, second, text)
        status, again = call(player, 'normal', at('n'), at('m'))
        if status != 0 or again != line or open(at('m'), 'rb').read() != found:
            figures['not_itself'] += 1; print('again', number)
        figures['with_legacy'] += legacies > 0
        figures['lines'] += first[1].count(b'\n'); figures['with_lines'] += b'\n' in first[1]
    print(figures)

if __name__ == '__main__':
    main(sys.argv[1], int(sys.argv[2]))
