"""The standards a second time, from memory: FIPS 197, RFC 3394 (its version with shifts) and RFC 5649, by someone who
had read neither standard.py nor the definitions of the crates. test_checker.py compares both for bytes of any value."""

from terms import table_of, xor


def multiply(a, b):
    """FIPS 197, 4.2: the product of two numbers modulo x^8 + x^4 + x^3 + x + 1."""
    product = 0
    for bit in range(8):
        if b >> bit & 1:
            product ^= a << bit
    for bit in range(14, 7, -1):
        if product >> bit & 1:
            product ^= 0x11B << (bit - 8)
    return product


def s_box(a):
    """FIPS 197, 5.1.1: the inverse, and then the affine transformation."""
    inverses = [c for c in range(256) if multiply(a, c) == 1]
    b = inverses[0] if inverses else 0
    result = 0
    for i in range(8):
        bit = (
            (b >> i)
            ^ (b >> (i + 4) % 8)
            ^ (b >> (i + 5) % 8)
            ^ (b >> (i + 6) % 8)
            ^ (b >> (i + 7) % 8)
            ^ (0x63 >> i)
        )
        result |= (bit & 1) << i
    return result


S_BOX = table_of(tuple(s_box(a) for a in range(256)))
INVERSE_S_BOX = table_of(tuple(S_BOX.entries.index(a) for a in range(256)))
MULTIPLES = {
    c: table_of(tuple(multiply(c, a) for a in range(256)))
    for c in (1, 2, 3, 9, 11, 13, 14)
}


def xor_all(first, second):
    assert len(first) == len(second)
    return [xor(a, b) for a, b in zip(first, second)]


def number(value, size):
    return list(value.to_bytes(size, "big"))


# FIPS 197


def key_expansion(key):
    """5.2, algorithm 2: the words w[0] to w[4 Nr + 3]."""
    nk = len(key) // 4
    rounds = {4: 10, 6: 12, 8: 14}[nk]
    words = [list(key[4 * i : 4 * i + 4]) for i in range(nk)]
    round_constant = 1
    for i in range(nk, 4 * rounds + 4):
        temp = words[i - 1]
        if i % nk == 0:
            temp = [S_BOX.of(a) for a in temp[1:] + temp[:1]]
            temp = xor_all(temp, [round_constant, 0, 0, 0])
            round_constant = multiply(round_constant, 2)
        elif nk > 6 and i % nk == 4:
            temp = [S_BOX.of(a) for a in temp]
        words.append(xor_all(words[i - nk], temp))
    return words


# 3.4: the state is s[r][c] = in[r + 4c].


def add_round_key(state, words):
    return [[xor(state[r][c], words[c][r]) for c in range(4)] for r in range(4)]


def mix(state, coefficients):
    """5.1.3 and 5.3.3: the columns times the matrix whose first row this is."""
    mixed = [[0] * 4 for _ in range(4)]
    for r in range(4):
        for c in range(4):
            for k in range(4):
                multiple = MULTIPLES[coefficients[(k - r) % 4]]
                mixed[r][c] = xor(mixed[r][c], multiple.of(state[k][c]))
    return mixed


def state_of(block):
    return [[block[r + 4 * c] for c in range(4)] for r in range(4)]


def block_of(state):
    return [state[i % 4][i // 4] for i in range(16)]


def substitute(state, table):
    return [[table.of(a) for a in row] for row in state]


def shift_rows(state, direction):
    """5.1.2 and 5.3.1: row r is shifted by r places, to the left if the direction is 1."""
    return [[state[r][(c + direction * r) % 4] for c in range(4)] for r in range(4)]


def cipher(key, block):
    """5.1, algorithm 1."""
    words = key_expansion(key)
    rounds = len(words) // 4 - 1
    state = add_round_key(state_of(block), words[:4])
    for number in range(1, rounds + 1):
        state = substitute(state, S_BOX)
        state = shift_rows(state, 1)
        if number < rounds:
            state = mix(state, (2, 3, 1, 1))
        state = add_round_key(state, words[4 * number : 4 * number + 4])
    return block_of(state)


def inverse_cipher(key, block):
    """5.3, algorithm 3."""
    words = key_expansion(key)
    rounds = len(words) // 4 - 1
    state = add_round_key(state_of(block), words[4 * rounds :])
    for number in range(rounds - 1, -1, -1):
        state = shift_rows(state, -1)
        state = substitute(state, INVERSE_S_BOX)
        state = add_round_key(state, words[4 * number : 4 * number + 4])
        if number > 0:
            state = mix(state, (14, 11, 13, 9))
    return block_of(state)


# RFC 3394: the first of the two descriptions, where the registers are shifted


def wrap(kek, initial_value, key):
    """2.2.1: A[s] | R[s][1] | ... | R[s][n]."""
    a = list(initial_value)
    registers = [list(key[i : i + 8]) for i in range(0, len(key), 8)]
    for t in range(1, 6 * len(registers) + 1):
        block = cipher(kek, a + registers[0])
        a = xor_all(block[:8], number(t, 8))
        registers = registers[1:] + [block[8:]]
    return sum(registers, a)


def unwrap(kek, text):
    """2.2.2: A[0], and R[0][1] | ... | R[0][n]."""
    a = list(text[:8])
    registers = [list(text[i : i + 8]) for i in range(8, len(text), 8)]
    for t in range(6 * len(registers), 0, -1):
        block = inverse_cipher(kek, xor_all(a, number(t, 8)) + registers[-1])
        a = block[:8]
        registers = [block[8:]] + registers[:-1]
    return a, sum(registers, [])


# RFC 5649


def alternative_iv(length):
    """3."""
    return number(0xA65959A6, 4) + number(length, 4)


def wrap_padded(kek, key):
    """4.1"""
    padded = list(key) + number(0, -len(key) % 8)
    if len(padded) == 8:
        return cipher(kek, alternative_iv(len(key)) + padded)
    return wrap(kek, alternative_iv(len(key)), padded)


def unwrap_padded(kek, text):
    """4.2: A and the padded key, before they are checked."""
    if len(text) == 16:
        block = inverse_cipher(kek, list(text))
        return block[:8], block[8:]
    return unwrap(kek, text)


def accepted(a, padded):
    """3: for each length that the key may have, what must be zero if it has this length."""
    return {
        length: xor_all(a, alternative_iv(length)) + padded[length:]
        for length in range(len(padded) - 7, len(padded) + 1)
    }
