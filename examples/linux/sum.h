/* The sum of cksum (POSIX), for the guest's program. */
#ifndef SUM_H
#define SUM_H

/* As far as it goes. */
struct sum {
    unsigned int word;
    unsigned long len;
};

static unsigned int powers[256];

static void fill_powers(void)
{
    for (unsigned int i = 0; i < 256; i++) {
        unsigned int word = i << 24;
        for (int bit = 0; bit < 8; bit++)
            word = word << 1 ^ (word >> 31 ? 0x04c11db7 : 0);
        powers[i] = word;
    }
}

static unsigned int with_byte(unsigned int word, unsigned char byte)
{
    return word << 8 ^ powers[word >> 24 ^ byte];
}

static void add(struct sum *sum, const char *bytes, int len)
{
    for (int i = 0; i < len; i++)
        sum->word = with_byte(sum->word, bytes[i]);
    sum->len += len;
}

static unsigned int end_of(const struct sum *sum)
{
    unsigned int word = sum->word;
    for (unsigned long rest = sum->len; rest != 0; rest >>= 8)
        word = with_byte(word, rest);
    return ~word;
}

#endif
