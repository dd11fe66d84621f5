/* Measures the block calls, the sender's call and the receiver's of libcard.a beside libfec's Reed-Solomon code on the same packet;
 * bench/run makes and runs it. */
#include <sys/utsname.h>
#include <time.h>

#include "calls.h"

enum {
    ROUNDS = 15,
    MOST = 2, /* calls that a counted run does at most */
};

/* ---- the comparison of the results */

/* Whether a block and full words have the same bytes, and the words their zeros. */
static int agree(uint8_t b[BLOCK], uint8_t w[C][FULL])
{
    static const uint8_t zeros[DATA - K];
    for (int j = 0; j < C; j++)
        if (memcmp(b + j * N, w[j], K) || memcmp(w[j] + K, zeros, DATA - K) || memcmp(b + j * N + K, w[j] + DATA, PARITY))
            return 0;
    return 1;
}

/* Encodes by both, and keeps the block and the words. */
static void compare_encode(void)
{
    before_our_encode();
    our_encode();
    before_their_encode();
    their_encode();
    if (our_answer != 0)
        fail("bailhammer_encode refuses the packet");
    if (!agree(our_block, their_words))
        fail("encode: bailhammer and libfec differ");
    memcpy(block, our_block, sizeof block);
    memcpy(words, their_words, sizeof words);
}

/* The number in the two bytes from i on of how the fragments are split. */
static int split_at(int i)
{
    return our_split[i] * 256 + our_split[i + 1];
}

/* The byte at q of what the fragments carry: place q div F of fragment q mod F. */
static uint8_t carried(int q)
{
    return our_sent[q % F * (H + S) + H + q / F];
}

/* Sends, and holds what the fragments carry against the block; behind the block's end it is zeros. */
static void compare_send(void)
{
    before_our_send();
    our_send();
    if (our_answer != 0)
        fail("bailhammer_fragments refuses the packet");
    if (split_at(0) != F || split_at(2) != H || split_at(4) != S || split_at(6) != S)
        fail("fragments: the split is not the one expected");
    for (int q = 0; q < F * S; q++)
        if (carried(q) != (q < BLOCK ? block[q] : 0))
            fail("fragments: they do not carry the block");
}

/* Loses fragments, and fills in by both. */
static void compare_fill(int lost)
{
    lose(lost);
    make_holes();
    before_our_fill();
    our_fill();
    before_their_fill();
    their_fill();
    if (our_answer != 0)
        fail("bailhammer_fill refuses the block");
    if (memcmp(our_block, block, sizeof block))
        fail("fill: bailhammer's block is not the original");
    if (memcmp(their_words, words, sizeof words))
        fail("fill: libfec's words are not the original");
}

/* The receiver's record and places when ENOUGH - 1 fragments came. */
static void lay_waiting(void)
{
    before_our_receiving();
    for (int i = 0; i < ENOUGH - 1; i++)
        receive_come(i);
    memcpy(waiting_record, our_record, sizeof our_record);
    memcpy(waiting_lent, our_lent, sizeof our_lent);
}

/* Receives the fragments sent, and fills in by libfec what is not held when the packet is handed out. */
static void compare_receive(void)
{
    static const uint8_t waits[TOLD], hands_out[TOLD] = {1, PACKET >> 8, PACKET & 255, 0, F - ENOUGH};
    lose_and_wait();
    make_holes();
    before_their_fill();
    their_fill();
    if (memcmp(their_words, words, sizeof words))
        fail("receive: libfec's words are not the original");
    lay_waiting();
    if (our_answer != 0 || memcmp(our_told, waits, TOLD) || our_packet[0] != JUNK)
        fail("receive: bailhammer does not wait for the fragment that completes the packet");
    our_deliver();
    if (our_answer != 0 || memcmp(our_told, hands_out, TOLD))
        fail("receive: bailhammer does not hand the packet out");
    if (memcmp(our_packet, packet, sizeof packet))
        fail("receive: bailhammer's packet is not the one sent");
    receive_come(COME - 1);
    if (our_answer != LATE)
        fail("receive: bailhammer takes a fragment of a packet that was handed out");
}

static void compare_all(void)
{
    compare_encode();
    compare_send();
    compare_receive();
    compare_fill(3);
    compare_fill(1);
}

/* ---- the times */

/* The process's CPU time in ns. */
static double now(void)
{
    struct timespec t;
    clock_gettime(CLOCK_PROCESS_CPUTIME_ID, &t);
    return t.tv_sec * 1e9 + t.tv_nsec;
}

/* The mean time of a turn. */
static double mean(struct side s)
{
    double sum = 0;
    for (int i = 0; i < s.times; i++) {
        s.before();
        double start = now();
        s.call();
        sum += now() - start;
    }
    return sum / s.times;
}

static double less(double a, double b)
{
    return a < b ? a : b;
}

/* The best mean of each side, the two in turn, as one line. */
static void measure(const char *what, struct side ours, struct side theirs)
{
    double our_best = 1e18, their_best = 1e18;
    for (int i = 0; i < ROUNDS; i++) {
        our_best = less(our_best, mean(ours));
        their_best = less(their_best, mean(theirs));
    }
    printf("%s: bailhammer %.0f ns, libfec %.0f ns, ratio %.1f\n", what, our_best, their_best, their_best / our_best);
}

static void measure_encode(void)
{
    char what[64];
    snprintf(what, sizeof what, "encode %d chunks k %d", C, K);
    measure(what, our_encoding, their_encoding);
}

/* All that the sender does, beside libfec's encode alone. */
static void measure_send(void)
{
    char what[64];
    snprintf(what, sizeof what, "fragments %d of %d bytes (libfec: encode)", F, H + S);
    measure(what, our_sending, their_encoding);
}

static void measure_fill(int lost)
{
    lose(lost);
    make_holes();
    char what[64];
    snprintf(what, sizeof what, "fill %d missing, %d chunks k %d", most_holes(), C, K);
    measure(what, our_filling, their_filling);
}

/* The receiver's call that hands the packet out, and all of its calls for the packet, beside libfec's filling alone. */
static void measure_receive(void)
{
    lose_and_wait();
    make_holes();
    lay_waiting();
    char what[64];
    snprintf(what, sizeof what, "receive fragment %d of %d (libfec: fill %d)", ENOUGH, F, most_holes());
    measure(what, our_delivering, their_filling);
    snprintf(what, sizeof what, "receive %d of %d fragments (libfec: fill %d)", COME, F, most_holes());
    measure(what, our_receiving, their_filling);
}

static void print_method(void)
{
    struct utsname u;
    uname(&u);
    printf("method: times on %s: ns a packet, process CPU time, best of %d rounds, both interleaved in each round, libfec's words laid out before\n", u.machine, ROUNDS);
}

static void time_all(void)
{
    print_method();
    compare_all();
    measure_encode();
    measure_send();
    measure_fill(3);
    measure_fill(1);
    measure_receive();
}

/* ---- the counted runs: bench/count has an emulator count their instructions */

/* The block by libcard.a, and the words from it. Every instruction of a counted run is slow, so libfec's own are not made here:
 * bench/count has compare_all run before, which finds them the same. */
static void lay_block(void)
{
    before_our_encode();
    our_encode();
    if (our_answer != 0)
        fail("bailhammer_encode refuses the packet");
    memcpy(block, our_block, sizeof block);
    for (int q = 0; q < BLOCK; q++)
        words[q / N][place_of(q % N)] = block[q];
}

/* Calls n times. It lays out MOST times whatever n is, so that runs with n and n + 1 differ by one call. */
static void call_times(struct side s, int n)
{
    for (int i = 0; i < MOST; i++) {
        s.before();
        if (i < n)
            s.call();
    }
}

static void count_fill(int lost, struct side s, int n)
{
    lay_block();
    lose(lost);
    make_holes();
    call_times(s, n);
}

static void count_receive(struct side s, int n)
{
    lay_block();
    our_send();
    lose_and_wait();
    make_holes();
    lay_waiting();
    call_times(s, n);
}

/* What only the receiver does: a fragment that opens a place, one that is kept, an empty datagram, and beside them the payload's copy. */
static int count_call(const char *what, int n)
{
    if (!strcmp(what, "open"))
        count_receive(our_opening, n);
    else if (!strcmp(what, "keep"))
        count_receive(our_keeping, n);
    else if (!strcmp(what, "refuse"))
        count_receive(our_refusing, n);
    else if (!strcmp(what, "copy"))
        count_receive(our_copying, n);
    else
        return 0;
    return 1;
}

/* Does n calls of the work that is named, by libcard.a or by libfec; 0 if there is no such work. */
static int count(const char *what, int ours, int n)
{
    struct side filling = ours ? our_filling : their_filling;
    if (!strcmp(what, "encode"))
        call_times(ours ? our_encoding : their_encoding, n);
    else if (!strcmp(what, "fragments"))
        call_times(ours ? our_sending : their_encoding, n);
    else if (!strcmp(what, "fill48"))
        count_fill(3, filling, n);
    else if (!strcmp(what, "fill16"))
        count_fill(1, filling, n);
    else if (!strcmp(what, "deliver"))
        count_receive(ours ? our_delivering : their_filling, n);
    else if (!strcmp(what, "receive"))
        count_receive(ours ? our_receiving : their_filling, n);
    else
        return ours && count_call(what, n);
    return 1;
}

/* The words behind `count`: what is done, by which side, how many times; 0 if they are not understood. */
static int count_words(char **word)
{
    int ours = !strcmp(word[1], "bailhammer");
    int n = word[2][0] - '0';
    if ((!ours && strcmp(word[1], "libfec")) || n < 0 || MOST < n || word[2][1])
        return 0;
    return count(word[0], ours, n);
}

int main(int argc, char **argv)
{
    rs = init_rs_char(8, 0x11d, 1, 1, PARITY, 0);
    if (!rs)
        fail("libfec makes no code");
    make_packet();
    lay_words();
    if (argc == 1)
        time_all();
    else if (argc == 2 && !strcmp(argv[1], "compare"))
        compare_all();
    else if (argc != 5 || strcmp(argv[1], "count") || !count_words(argv + 2))
        fail("usage: rs [compare | count encode|fragments|fill48|fill16|deliver|receive bailhammer|libfec 0|1|2 | count open|keep|refuse|copy bailhammer 0|1|2]");
    free_rs_char(rs);
    return 0;
}
