// Finds names that meet in the index of resources, hashed with both keys 0. It is a library for tests/chosen_names.py:
// one name of 256 does, so the search would be slow there.
typedef __UINT64_TYPE__ word;
typedef __UINT32_TYPE__ half;

enum { LENGTH = 7, LETTERS = 26 };

static word turned(word it, int bits) { return it << bits | it >> (64 - bits); }

static void sip_round(word v[4]) {
    v[0] += v[1];
    v[2] += v[3];
    v[1] = turned(v[1], 13) ^ v[0];
    v[3] = turned(v[3], 16) ^ v[2];
    v[0] = turned(v[0], 32);
    v[2] += v[1];
    v[0] += v[3];
    v[1] = turned(v[1], 17) ^ v[2];
    v[3] = turned(v[3], 21) ^ v[0];
    v[2] = turned(v[2], 32);
}

static void take(word v[4], word it) {
    v[3] ^= it;
    sip_round(v);
    v[0] ^= it;
}

// The hash of a key of two words: the low half of SipHash-1-3.
static half hash_of(word space, word name) {
    word v[4] = {0x736F6D6570736575, 0x646F72616E646F6D, 0x6C7967656E657261, 0x7465646279746573};
    take(v, space);
    take(v, name);
    v[2] ^= 0xFF;
    sip_round(v);
    sip_round(v);
    sip_round(v);
    return (half)(v[0] ^ v[1] ^ v[2] ^ v[3]);
}

// How a part of the index spreads hashes: the upper half of a product.
static half spread(half hash) { return (half)(hash * 0x9E3779B97F4A7C15 >> 32); }

// The name of seven letters with this number in the order of the alphabet, its first letter lowest.
static word name_of(word number) {
    word name = 0;
    for (int at = LENGTH - 1; at >= 0; at--, number /= LETTERS)
        name |= (word)('A' + number % LETTERS) << 8 * at;
    return name;
}

// Writes the first names in a name space whose hashes have the bits of `part` clear, so that one part of the index has
// all, and whose places in that part have the bits of `clear` clear.
void meeting_names(word space, half part, half clear, word *names, word count) {
    for (word number = 0, found = 0; found < count; number++) {
        half hash = hash_of(space, name_of(number));
        if (!(hash & part) && !(spread(hash) & clear))
            names[found++] = name_of(number);
    }
}
