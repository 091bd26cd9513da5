"""The programs, schedules and texts that benchmarks/speed and benchmarks/growth measure with. Here `|` parts directives and
rows; threads that are only counted begin at the first row."""


def lines(text): return [line.strip() for line in text.split('|') if line.strip()]


def program(directives, threads, rows):
    """The text of a program; so many threads are declared behind the directives."""
    return '\n'.join(lines(directives) + [f'.thread a{i} #0' for i in range(threads)] + lines(rows)) + '\n'


def schedule(pattern, choices):
    """So many choices: of a pattern that ends in a star one token, else its tokens again and again."""
    if pattern.endswith('*'): return f'{pattern}{choices}'
    words = pattern.split()
    return ' '.join((words * (choices // len(words) + 1))[:choices])


ALL64 = ' '.join(f't{i}' for i in range(64))

# A tree of 64 phasers in 8 levels: the root, and nine branches of seven. The leaves c0l6 to c8l6 have a party each.
TREE = '.phaser r 0' + ''.join(
    f' | .phaser c{c}l{level} {level // 6} parent ' + ('r' if level == 0 else f'c{c}l{level - 1}')
    for c in range(9) for level in range(7))
LEAVES = ' | '.join(f'parr r0 c{c}l6' for c in range(9))

# The plays: directives, threads, rows, and the pattern of the schedule. goals.txt says what each does. (`preg` registers
# at every second choice, 65535 times at most.)
PLAYS = {
    'idle': ('.phaser p 2', 2, 'paaa r0 p | halt', 't0*'),
    'idle turns': ('.phaser p 3', 3, 'paaa r0 p | halt', 't0 t1'),
    'idle ones': ('.phaser p 2', 2, 'paaa r0 p | halt', 't0*1'),
    'own': ('', 2, 'm: ldi r1 1 | add r0 r0 r1 | blt r0 r1 m | jmp m', 't0 t1'),
    'own64': ('', 64, 'm: ldi r1 1 | add r0 r0 r1 | blt r0 r1 m | jmp m', ALL64),
    'calls': ('', 2, 'm: call f | jmp m | f: ret', 't0 t1'),
    'cells': ('.cell c', 2, 'm: lds r0 c | sts r0 c | jmp m', 't0 t1'),
    'interrupts': ('', 2, 'm: intr #0 | intrd r0 | jmp m', 't0 t1'),
    'throws': ('', 2, 'm: try h | throw r0 | h: jmp m', 't0 t1'),
    'unwinding': ('', 2, 'm: try h | call a | h: jmp m | a: call b | b: call c | c: throw r0', 't0 t1'),
    'busy': ('.phaser p 64', 64, 'm: ldi r1 7 | parr r0 p | jmp m', ALL64),
    'paaa2': ('.phaser p 2', 2, 'm: paaa r0 p | jmp m', 't0 t1 t1 t0 t0 t1'),
    'paaa64': ('.phaser p 64', 64, 'm: paaa r0 p | jmp m', ALL64),
    'pawait': ('.phaser p 1 | .thread a m | .thread b n', 0, 'm: pawait r0 p r0 | jmp m | n: parr r0 p | jmp n', 't0 t1 t0 t0 t1'),
    'pawaitt': ('.phaser p 1', 1, 'ldi r3 1 | m: try h | pawaitt r0 p r2 r3 | h: jmp m', 't0 t0 t0 x0 t0'),
    'flat': ('.phaser p 9', 1, 'm: ' + 'parr r0 p | ' * 9 + 'jmp m', 't0*'),
    'getters': ('.phaser p 2', 2, 'm: pphase r0 p | pparties r1 p | parrived r2 p | punarr r3 p | pterm r4 p | pparent r5 p | proot r6 p | jmp m', 't0 t1'),
    'preg': ('.phaser p 1', 2, 'm: preg r0 p | jmp m', 't0 t1'),
    'pbulk': ('.phaser p 1', 1, 'ldi r1 2 | m: pbulk r0 p r1 | pdereg r0 p | pdereg r0 p | jmp m', 't0*'),
    'pdereg': ('.phaser p 1', 2, 'm: preg r0 p | pdereg r0 p | jmp m', 't0 t1'),
    'refused': ('.phaser p 0', 2, 'm: try h | parr r0 p | h: jmp m', 't0 t1'),
    'tree': (TREE, 1, 'm: ' + LEAVES + ' | jmp m', 't0*'),
    'tree pdereg': (TREE, 2, 'm: preg r0 c0l6 | pdereg r0 c0l6 | jmp m', 't0 t1'),
    'tree leaves': (TREE, 1, 'm: pdereg r0 c0l6 | preg r0 c0l6 | jmp m', 't0*'),
    'terminated': (TREE, 1, 'pforce r | m: ' + LEAVES + ' | jmp m', 't0*'),
    'barrier': ('.barrier b 2 action act', 2, 'm: cawait r0 b | jmp m | act: ldi r3 1 | ret', 't0 t1 t1 t1 t0 t1 t0 t1 t1 t1 t0 t0'),
    'barrier getters': ('.barrier b 2', 2, 'm: cbroken r0 b | cwaiting r1 b | cparties r2 b | jmp m', 't0 t1'),
    'routine': ('.phaser p 1 onadvance adv', 1, 'm: parr r2 p | jmp m | adv: ldi r0 0 | ret', 't0*'),
}

MIX = ['ldi r1 {n}', 'parr r0 p', 'add r2 r1 r0', 'lds r3 cc', 'blt r1 r2 l{at}', 'jmp l{at}', 'paaa r4 p', 'sts r1 cc']


def mixed(i, many):
    """Line i of a text of rows of all kinds, with a label each fifty."""
    label = f'l{i}: ' if i % 50 == 0 else ''
    return label + MIX[i % 8].format(n=i * 7919 % 100000, at=i // 50 * 50)


# The texts: line i of so many.
TEXTS = {
    'asm': mixed,
    'asm comments': lambda i, many: f'; what follows takes part in phases {i}',
    'asm behind': lambda i, many: mixed(i, many) + ' ; arrives',
    'asm tabs': lambda i, many: '\t' + mixed(i, many),
    'asm labels': lambda i, many: f'at{i}:',
    'asm jumps': lambda i, many: f'l{i}: jmp l{i * 7919 % many}',
}


def text(line, many):
    return '\n'.join(['.phaser p 2', '.cell cc', '.thread a #0'] + [line(i, many) for i in range(many)] + ['halt']) + '\n'


def ended_at_once(many):
    """A text of so many rows whose thread plays the last one alone."""
    rows = [mixed(i, many) for i in range(many)]
    return '\n'.join(['.phaser p 2', '.cell cc', '.thread a end'] + rows + ['end: halt']) + '\n'


def counts_to(n):
    """Threads that go round so many times, and end."""
    return program('', 2, f'ldi r1 1 | ldi r2 {n} | l: add r0 r0 r1 | ldi r3 7 | blt r0 r2 l | halt')
