// A plain program that reads a file of numbers, one a line, passes them through so many filters of
// 64 taps, and writes a heading and the values: unproved. With `narrow` a filter sums in 64 bits
// and stops where a product or a sum leaves them, with `wide` it sums in 128 bits, and with `bare`
// in 64 that wrap unseen. With no filter it copies, and with `read` it tells the count of the
// numbers alone.
#include <cstdint>
#include <cstdio>
#include <cstdlib>
#include <cstring>
#include <string>
#include <vector>

using Wide = __int128;
static const int64_t MOST = 9223372036854775807;

static std::vector<int64_t> numbers(const char *name) {
    FILE *file = fopen(name, "rb");
    if (!file) exit(5);
    std::string text;
    static char piece[65536];
    while (size_t count = fread(piece, 1, sizeof piece, file)) text.append(piece, count);
    fclose(file);
    std::vector<int64_t> values;
    for (size_t at = 0; at < text.size(); at++) {
        bool is_minus = text[at] == '-';
        uint64_t n = 0;
        size_t digits = 0;
        for (at += is_minus; at < text.size() && text[at] != '\n'; at++, digits++) {
            if (text[at] < '0' || text[at] > '9' || digits == 19) exit(1);
            n = n * 10 + (uint64_t)(text[at] - '0');
        }
        if (digits == 0 || n > (uint64_t)MOST) exit(1);
        values.push_back(is_minus ? -(int64_t)n : (int64_t)n);
    }
    return values;
}

static int64_t narrow(const int64_t *taps, const int64_t *window, int shift) {
    int64_t sum = 0, product;
    for (int j = 0; j < 64; j++)
        if (__builtin_mul_overflow(taps[j], window[j], &product) ||
            __builtin_add_overflow(sum, product, &sum))
            exit(3);
    return sum >> shift;
}

static int64_t wide(const int64_t *taps, const int64_t *window, int shift) {
    Wide sum = 0;
    for (int j = 0; j < 64; j++) sum += (Wide)taps[j] * window[j];
    sum >>= shift;
    if (sum > MOST || sum < -(Wide)MOST) exit(3);
    return (int64_t)sum;
}

static int64_t bare(const int64_t *taps, const int64_t *window, int shift) {
    int64_t sum = 0;
    for (int j = 0; j < 64; j++) sum += taps[j] * window[j];
    return sum >> shift;
}

int main(int, char **words) {
    bool is_wide = !strcmp(words[1], "wide"), is_bare = !strcmp(words[1], "bare");
    int filters = atoi(words[2]);
    std::vector<int64_t> values = numbers(words[3]);
    if (!strcmp(words[1], "read")) return printf("%zu\n", values.size()) < 0 ? 5 : 0;
    int64_t taps[64];
    for (int j = 0; j < 64; j++) taps[j] = j % 2 == 0 ? 1000 + j : j - 900;
    for (int f = 0; f < filters; f++) {
        // The window stands twice, so that its samples are one stretch.
        int64_t window[128] = {0};
        int at = 0;
        for (int64_t &value : values) {
            at = at == 0 ? 63 : at - 1;
            window[at] = window[at + 64] = value;
            const int64_t *last = window + at;
            value = is_bare   ? bare(taps, last, 12)
                    : is_wide ? wide(taps, last, 12)
                              : narrow(taps, last, 12);
        }
    }
    std::string out = "out " + std::to_string(values.size()) + "\n";
    for (int64_t value : values) {
        out += std::to_string(value);
        out += '\n';
    }
    return fwrite(out.data(), 1, out.size(), stdout) == out.size() ? 0 : 5;
}
