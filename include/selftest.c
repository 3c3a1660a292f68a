/* Calls every function, with each of its refusals and accepted, and prints ok; built as example.c is. */
#include <stdio.h>
#include <string.h>
#include "jikhvanto.h"

static int failed;
#define EXPECT(x) ((x) ? (void)0 : (void)(failed = 1, printf("line %d: %s\n", __LINE__, #x)))

enum { BEFORE = 0xAA, N = 4 };
static uint8_t payload[N * 496], overhead[N * 8], image[8193], back[N * 496 + 1], slot0[N * 16];
static uint64_t answer[JK_ANSWER];

/* Whether the number is returned and answered, the value after it, and zeros behind. */
static int answered(uint64_t returned, uint64_t number, uint64_t value)
{
    int place, zeros = 1;

    for (place = 2; place < JK_ANSWER; place++)
        zeros &= answer[place] == 0;
    return returned == number && answer[JK_NUMBER] == number && answer[1] == value && zeros;
}

#define ANSWERED(call, number, value) EXPECT((memset(answer, BEFORE, sizeof answer), answered(call, number, value)))
#define REFUSED(call, number) ANSWERED(call, number, 0)

static int untouched(const uint8_t *octets, size_t count)
{
    while (count > 0 && octets[count - 1] == BEFORE)
        count--;
    return count == 0;
}

static void writing(void)
{
    size_t i;
    uint64_t check;

    for (i = 0; i < sizeof payload; i++)
        payload[i] = (uint8_t)(i * 7 + i / 31);
    for (i = 0; i < sizeof overhead; i++)
        overhead[i] = i % 8 < 6 ? 0x1F : 0x5F;
    memset(image, BEFORE, sizeof image);
    REFUSED(jk_write(payload, 495, overhead, 8, 0, image, 512, answer), JK_BAD_PAYLOAD);
    REFUSED(jk_write(payload, 496, overhead, 9, 0, image, 512, answer), JK_BAD_OVERHEAD);
    REFUSED(jk_write(payload, 496, overhead, 8, 16, image, 512, answer), JK_BAD_CHECK);
    REFUSED(jk_write(payload, 496, overhead, 8, 0, image, 511, answer), JK_SHORT_OUTPUT);
    EXPECT(untouched(image, sizeof image));

    /* one multiframe, its check handed on, and the rest */
    EXPECT(jk_write(payload, 496, overhead, 8, 0, image, sizeof image, answer) == JK_ACCEPTED);
    EXPECT(untouched(image + 512, sizeof image - 512));
    check = answer[JK_CHECK];
    EXPECT(jk_write(payload + 496, 3 * 496, overhead + 8, 3 * 8, check, image + 512, 3 * 512, answer) == JK_ACCEPTED);
    EXPECT(untouched(image + N * 512, sizeof image - N * 512));
}

/* The first marks of these multiframes' signals turned over. */
static void hit_signals(uint8_t *line, int first, int end)
{
    for (; first < end; first++)
        line[(16 * first + 1) * 32] ^= 0x80;
}

/* A word, a bit 2 of 1 and a word, from this octet on. */
static void set_basic(uint8_t *line)
{
    line[0] = line[64] = 0x1B;
    line[32] = 0x40;
}

/* Lines with no place that stands. No room is lent, and that goes unsaid. */
static void unread(void)
{
    static uint8_t line[2304];

    memcpy(line + 1, image, N * 512);
    REFUSED(jk_read(line, 2048, back, 0, slot0, 0, answer), JK_NO_PLACE);
    hit_signals(line + 1, 0, N);
    ANSWERED(jk_read(line, 2049, back, 0, slot0, 0, answer), JK_BASIC_ONLY, 8);
    EXPECT(jk_why(line, 2049, answer[JK_PLACE], answer) == JK_ACCEPTED && answer[JK_CONDITION] == JK_NO_PAIR);
    REFUSED(jk_read(line, 2047, back, 0, slot0, 0, answer), JK_SHORT_IMAGE);

    /* the last place with room, which an octet less takes away, and the first of two */
    memset(line, 0, sizeof line);
    set_basic(line + 256);
    ANSWERED(jk_read(line, 2304, back, 0, slot0, 0, answer), JK_BASIC_ONLY, 8 * 256);
    REFUSED(jk_read(line, 2303, back, 0, slot0, 0, answer), JK_NO_PLACE);
    set_basic(line);
    ANSWERED(jk_read(line, 2304, back, 0, slot0, 0, answer), JK_BASIC_ONLY, 0);
}

/* Whether the image is read, with this answer to the last of its places. */
static int reads(const uint64_t expected[JK_ANSWER])
{
    memset(answer, BEFORE, sizeof answer);
    return jk_read(image, N * 512, back, sizeof back, slot0, sizeof slot0, answer) == JK_ACCEPTED
        && !memcmp(answer, expected, sizeof answer);
}

/* These bits of slot 0 turned over in three frames, the first and every second from it on. */
static void hit_three(uint8_t *line, int first, uint8_t bits)
{
    int frame;

    for (frame = first; frame < first + 6; frame += 2)
        line[frame * 32] ^= bits;
}

/* Losses of the image, which is left as it was. */
static void losing(void)
{
    static const uint64_t word[JK_ANSWER] = {JK_ACCEPTED, 0, 0, N, 2, 40, 0, 3, 0, 0, 0, JK_CAUSE_WORD};
    static const uint64_t bit_2[JK_ANSWER] = {JK_ACCEPTED, 0, 0, N, 2, 39, 0, 3, 0, 0, 0, JK_CAUSE_BIT2};
    static const uint64_t none_used[JK_ANSWER] = {JK_ACCEPTED, 0, 0, N, 0, 7, 0, 0, 0, 0, 0, JK_CAUSE_BIT2};

    /* the words of frames 36, 38 and 40, then also the bits 2 of frames 37, 39 and 41 */
    hit_three(image, 36, 0x01);
    EXPECT(reads(word) && answer[JK_LOST] == 40 && answer[JK_CAUSE] == JK_CAUSE_WORD);
    hit_three(image, 37, 0x40);
    EXPECT(reads(word));

    /* that of frame 35 too, so that the third comes before the third word; with little room; and with right words */
    image[35 * 32] ^= 0x40;
    EXPECT(reads(bit_2) && answer[JK_LOST] == 39 && answer[JK_CAUSE] == JK_CAUSE_BIT2);
    REFUSED(jk_read(image, N * 512, back, 2 * 496 - 1, slot0, 2 * 16, answer), JK_SHORT_OUTPUT);
    hit_three(image, 36, 0x01);
    EXPECT(reads(bit_2));
    image[35 * 32] ^= 0x40;
    hit_three(image, 37, 0x40);

    hit_three(image, 3, 0x40);
    memset(back, BEFORE, sizeof back);
    memset(slot0, BEFORE, sizeof slot0);
    EXPECT(reads(none_used) && untouched(back, sizeof back) && untouched(slot0, sizeof slot0));
    hit_three(image, 3, 0x40);
}

static void reading(void)
{
    static const uint64_t clean[JK_ANSWER] = {JK_ACCEPTED, 0, 0, N, N, 0, 0, 2 * N - 1, 0, 0, 0};
    static const uint64_t three[JK_ANSWER] = {JK_ACCEPTED, 0, 0, N, N, 0, 1, 2 * N - 1, 1, 0, 3};
    static const uint64_t ten[JK_ANSWER] = {JK_ACCEPTED, 0, 0, N, N, 0, 2, 2 * N - 1, 2, 0, 10};
    static const uint64_t far_2[JK_ANSWER] = {JK_ACCEPTED, 0, 0, N, N, 0, 2, 2 * N - 1, 3, 2, 10};
    static const uint64_t far_4[JK_ANSWER] = {JK_ACCEPTED, 0, 0, N, N, 0, 2, 2 * N - 1, 3, 4, 10};
    static const uint8_t zeros[2048] = {0};

    memset(back, BEFORE, sizeof back);
    memset(slot0, BEFORE, sizeof slot0);
    REFUSED(jk_read(image, 2047, back, sizeof back, slot0, sizeof slot0, answer), JK_SHORT_IMAGE);
    REFUSED(jk_read(image, 8193, back, sizeof back, slot0, sizeof slot0, answer), JK_LONG_IMAGE);
    REFUSED(jk_read(zeros, 2048, back, sizeof back, slot0, sizeof slot0, answer), JK_NO_PLACE);
    REFUSED(jk_read(image, 2048, back, sizeof back, slot0, sizeof slot0 - 1, answer), JK_SHORT_OUTPUT);
    unread();
    EXPECT(untouched(back, sizeof back) && untouched(slot0, sizeof slot0));

    EXPECT(reads(clean) && !memcmp(back, payload, sizeof payload));
    EXPECT(untouched(back + sizeof payload, 1) && slot0[0] == image[0] && slot0[63] == image[63 * 32]);
    losing();
    EXPECT(reads(clean) && answer[JK_LOST] == 0 && answer[JK_CAUSE] == JK_CAUSE_NONE);

    /* three bits of a word hit, then all seven of one in another block */
    image[20 * 32] ^= 0x07;
    EXPECT(reads(three) && answer[JK_WORDS] == 1 && answer[JK_WORDBITS] == 3);
    image[24 * 32] ^= 0x7F;
    EXPECT(reads(ten) && answer[JK_WORDS] == 2 && answer[JK_WORDBITS] == 10);

    /* E bits made 0: two of a block that is errored by it, then the two of the last block, which is not compared */
    image[45 * 32] ^= 0x80;
    image[47 * 32] ^= 0x80;
    EXPECT(reads(far_2) && answer[JK_ERRORED] == 3 && answer[JK_FAREND] == 2);
    image[61 * 32] ^= 0x80;
    image[63 * 32] ^= 0x80;
    EXPECT(reads(far_4) && answer[JK_ERRORED] == 3 && answer[JK_FAREND] == 4);
}

/* A line of L multiframes behind FRONT octets, what jk_read fills of it, and what leaves a stream. */
enum { L = 15, FRONT = 5 };
static uint8_t fed[FRONT + L * 512], filled[L * 496], filled0[L * 16], left[L * 496], left0[L * 16];
static uint8_t stream[JK_STREAM_OCTETS], was[JK_STREAM_OCTETS];

static void write_fed(void)
{
    uint64_t check = 0;
    int m;

    memset(fed, BEFORE, FRONT);
    for (m = 0; m < L; m++) {
        jk_write(payload + m % N * 496, 496, overhead, 8, check, fed + FRONT + m * 512, 512, answer);
        check = answer[JK_CHECK];
    }
}

/* Whether an end now, which is made on a copy, answers what jk_read does of the octets that came. */
static int ends(size_t octets)
{
    uint64_t expected[JK_ANSWER];

    memcpy(was, stream, sizeof was);
    memset(answer, BEFORE, sizeof answer);
    jk_read(fed, octets, filled, sizeof filled, filled0, sizeof filled0, expected);
    return jk_end(was, answer) == expected[JK_NUMBER] && !memcmp(answer, expected, sizeof answer)
        && (expected[JK_NUMBER] == JK_ACCEPTED ? was[7] == 1 : !memcmp(was, stream, sizeof was));
}

/* Whether the line goes as jk_read says, fed in chunks of so many octets and less, with an end after each. */
static int streams(size_t most)
{
    size_t octets = 0, used = 0, chunk;
    int right = 1;

    jk_stream_start(stream);
    for (chunk = most; octets < sizeof fed; chunk = chunk > most / 3 ? chunk - most / 7 - 1 : most) {
        if (chunk > sizeof fed - octets)
            chunk = sizeof fed - octets;
        right &= jk_feed(stream, fed + octets, chunk, left + used * 496, sizeof left - used * 496,
                         left0 + used * 16, sizeof left0 - used * 16, answer) == JK_ACCEPTED;
        octets += chunk;
        used += (size_t)answer[JK_LEFT];
        right &= ends(octets);
    }
    return right && answer[JK_NUMBER] == JK_ACCEPTED && answer[JK_USED] == used
        && !memcmp(left, filled, used * 496) && !memcmp(left0, filled0, used * 16);
}

/* A stream with this number, spelt by three octets, in the place i of the twelve. */
static void made_up(int i, uint8_t high, uint8_t middle, uint8_t low)
{
    jk_stream_start(stream);
    stream[8 * i + 4] = high;
    stream[8 * i + 6] = middle;
    stream[8 * i + 7] = low;
}

static void unstreamed(void)
{
    /* too little came, then no frames, then no signals: it goes on each time */
    jk_stream_start(stream);
    hit_signals(fed + FRONT, 0, 5);
    REFUSED(jk_end(stream, answer), JK_SHORT_IMAGE);
    ANSWERED(jk_feed(stream, fed, 2048, left, 0, left0, 0, answer), JK_ACCEPTED, 0);
    REFUSED(jk_end(stream, answer), JK_NO_PLACE);
    ANSWERED(jk_feed(stream, fed + 2048, 512, left, 0, left0, 0, answer), JK_ACCEPTED, 0);
    ANSWERED(jk_end(stream, answer), JK_BASIC_ONLY, 8 * FRONT);
    hit_signals(fed + FRONT, 0, 5);

    /* a chunk that lacks room changes nothing, and is taken when it is offered again */
    jk_stream_start(stream);
    ANSWERED(jk_feed(stream, fed, 2000, left, 0, left0, 0, answer), JK_ACCEPTED, 0);
    memcpy(was, stream, sizeof was);
    memset(left, BEFORE, sizeof left);
    memset(left0, BEFORE, sizeof left0);
    REFUSED(jk_feed(stream, fed + 2000, 600, left, 5 * 496 - 1, left0, 5 * 16, answer), JK_SHORT_OUTPUT);
    REFUSED(jk_feed(stream, fed + 2000, 600, left, 5 * 496, left0, 5 * 16 - 1, answer), JK_SHORT_OUTPUT);
    EXPECT(!memcmp(stream, was, sizeof was) && untouched(left, sizeof left) && untouched(left0, sizeof left0));
    ANSWERED(jk_feed(stream, fed + 2000, 600, left, 5 * 496 + 1, left0, 5 * 16 + 1, answer), JK_ACCEPTED, 5);
    EXPECT(!memcmp(left, payload, N * 496) && untouched(left + 5 * 496, 1) && untouched(left0 + 5 * 16, 1));

    /* after an end that is accepted, whatever the room */
    EXPECT(jk_end(stream, answer) == JK_ACCEPTED && answer[JK_USED] == 5 && stream[7] == 1);
    memcpy(was, stream, sizeof was);
    REFUSED(jk_feed(stream, fed, 0, left, 0, left0, 0, answer), JK_ENDED);
    REFUSED(jk_end(stream, answer), JK_ENDED);
    EXPECT(!memcmp(stream, was, sizeof was));

    /* 16,777,216 octets before an empty window: one more is too many, and none is not */
    made_up(2, 1, 0, 0);
    REFUSED(jk_feed(stream, fed, 1, left, 0, left0, 0, answer), JK_LONG_LINE);
    ANSWERED(jk_feed(stream, fed, 0, left, 0, left0, 0, answer), JK_ACCEPTED, 0);

    /* 2,049 octets in the window, and over 134,217,728 wrong words: these come from no calls */
    made_up(1, 0, 8, 1);
    REFUSED(jk_feed(stream, fed, 0, left, 0, left0, 0, answer), JK_ENDED);
    made_up(8, 8, 0, 1);
    REFUSED(jk_end(stream, answer), JK_ENDED);
    made_up(8, 8, 0, 0);
    REFUSED(jk_end(stream, answer), JK_SHORT_IMAGE);

    /* a first number of 2 is no end */
    made_up(0, 0, 0, 2);
    ANSWERED(jk_feed(stream, fed, 0, left, 0, left0, 0, answer), JK_ACCEPTED, 0);
    EXPECT(stream[7] == 0);
}

static void streaming(void)
{
    size_t i;

    memset(stream, BEFORE, sizeof stream);
    jk_stream_start(stream);
    for (i = 0; i < sizeof stream; i++)
        EXPECT(stream[i] == 0);
    write_fed();
    unstreamed();
    EXPECT(streams(1) && streams(37) && streams(700) && streams(3000) && streams(sizeof fed));

    /* a wrong word, a wrong block and an E bit of 0; a false start; and a loss by each rule */
    fed[FRONT + 20 * 32] ^= 0x05;
    fed[FRONT + 1000] ^= 0x01;
    fed[FRONT + 61 * 32] ^= 0x80;
    EXPECT(streams(150) && answer[JK_WORDBITS] == 2 && answer[JK_ERRORED] == 3 && answer[JK_FAREND] == 1);
    hit_signals(fed + FRONT, 0, 4);
    EXPECT(streams(211) && answer[JK_PLACE] > 8 * FRONT);
    hit_three(fed + FRONT, 190, 0x10);
    EXPECT(streams(600) && answer[JK_CAUSE] == JK_CAUSE_WORD);
    hit_three(fed + FRONT, 143, 0x40);
    EXPECT(streams(77) && answer[JK_CAUSE] == JK_CAUSE_BIT2);
}

/* XY and ABCD of N multiframes, with one octet more. */
static uint8_t xy[N + 1], abcd[N * 30 + 1];

/* Whether this is heard of the line, to the last place of the answer, with so many octets of ABCD. */
static int hears(const uint8_t *line, const uint64_t expected[JK_ANSWER], size_t needed)
{
    memset(answer, BEFORE, sizeof answer);
    memset(back, BEFORE, sizeof back);
    return jk_signals(line, N * 512, back, needed + 1, answer) == JK_ACCEPTED
        && !memcmp(answer, expected, sizeof answer) && untouched(back + needed, sizeof back - needed);
}

static void unsignalled(uint8_t *line)
{
    memset(line, BEFORE, N * 512 + 1);
    REFUSED(jk_write_signalled(payload, 495, overhead, 7, 16, xy, 0, abcd, 0, line, 0, answer), JK_BAD_PAYLOAD);
    REFUSED(jk_write_signalled(payload, 496, overhead, 7, 16, xy, 0, abcd, 0, line, 0, answer), JK_BAD_OVERHEAD);
    REFUSED(jk_write_signalled(payload, 496, overhead, 8, 16, xy, 0, abcd, 0, line, 0, answer), JK_BAD_CHECK);
    REFUSED(jk_write_signalled(payload, 496, overhead, 8, 0, xy, 2, abcd, 30, line, 0, answer), JK_BAD_SIGNALS);
    REFUSED(jk_write_signalled(payload, 496, overhead, 8, 0, xy, 1, abcd, 29, line, 0, answer), JK_BAD_SIGNALS);
    REFUSED(jk_write_signalled(payload, 496, overhead, 8, 0, xy, 1, abcd, 30, line, 511, answer), JK_SHORT_OUTPUT);
    xy[0] = 16;
    REFUSED(jk_write_signalled(payload, 496, overhead, 8, 0, xy, 1, abcd, 30, line, 512, answer), JK_BAD_SIGNALS);
    xy[0] = 15;
    abcd[29] = 0;
    REFUSED(jk_write_signalled(payload, 496, overhead, 8, 0, xy, 1, abcd, 30, line, 512, answer), JK_BAD_SIGNALS);
    abcd[29] = 15;
    EXPECT(untouched(line, N * 512 + 1));
}

static void unheard(const uint8_t *line)
{
    static const uint8_t zeros[2048] = {0};
    static uint8_t basic[N * 512];

    memset(back, BEFORE, sizeof back);
    REFUSED(jk_signals(line, 2047, back, 450, answer), JK_SHORT_IMAGE);
    REFUSED(jk_signals(image, 8193, back, 450, answer), JK_LONG_IMAGE);
    REFUSED(jk_signals(zeros, 2048, back, 450, answer), JK_NO_PLACE);
    memcpy(basic, line, sizeof basic);
    hit_signals(basic, 0, N);
    REFUSED(jk_signals(basic, sizeof basic, back, 0, answer), JK_BASIC_ONLY);
    REFUSED(jk_signals(line, 2048, back, 89, answer), JK_SHORT_OUTPUT);
    EXPECT(untouched(back, sizeof back));
}

static void signalling(void)
{
    static const uint64_t clean[JK_ANSWER] = {JK_ACCEPTED, 3, 16, 0, 1, 0, 1, 0, 1};
    static const uint64_t fewer[JK_ANSWER] = {JK_ACCEPTED, 1, 16, 0, 1, 1, 0, 0, 1};
    static const uint64_t wrong[JK_ANSWER] = {JK_ACCEPTED, 3, 16, 0, 1, 1, 0, 1, 1};
    static const uint64_t lost[JK_ANSWER] = {JK_ACCEPTED, 2, 16, 1, 0, 1, 1, 1, 0};
    static const uint64_t late[JK_ANSWER] = {JK_ACCEPTED, 0, 63, 0, 1, 1, 1, 1, 0};
    static const uint64_t none[JK_ANSWER] = {JK_ACCEPTED, 0, 0, 0, 0, 1, 1, 1, 0};
    static uint8_t line[N * 512 + 1], plain[N * 512];
    size_t i;

    for (i = 0; i < sizeof xy; i++)
        xy[i] = (uint8_t)(15 - 3 * i);
    for (i = 0; i < sizeof abcd; i++)
        abcd[i] = (uint8_t)(1 + (i + i / 30) % 15);
    unsignalled(line);

    /* what is written is the payload with slot 16 replaced, whatever it had there */
    EXPECT(jk_write_signalled(payload, sizeof payload, overhead, sizeof overhead, 5, xy, N, abcd, N * 30,
                              line, sizeof line, answer) == JK_ACCEPTED);
    EXPECT(untouched(line + N * 512, 1) && line[16] == 15 && line[32 + 16] == (abcd[0] << 4 | abcd[15]));
    memcpy(back, payload, sizeof payload);
    for (i = 0; i < N * 16; i++)
        back[31 * i + 15] = line[32 * i + 16];
    EXPECT(jk_write(back, sizeof payload, overhead, sizeof overhead, 5, plain, sizeof plain, answer) == JK_ACCEPTED);
    EXPECT(!memcmp(line, plain, sizeof plain));

    unheard(line);
    EXPECT(line[48 * 32 + 16] == 6 && hears(line, clean, 90) && !memcmp(back, abcd + 30, 90));

    /* alignment lost by bits 2 in multiframe 2 */
    hit_three(line, 35, 0x40);
    EXPECT(hears(line, fewer, 30) && !memcmp(back, abcd + 30, 30));
    hit_three(line, 35, 0x40);

    /* the last signal wrong, and the one before too; then the last frame's alone; then none */
    line[48 * 32 + 16] = 0xDD;
    EXPECT(hears(line, wrong, 90) && answer[JK_X0] == 1 && answer[JK_X1] == 0 && answer[JK_Y] == 1);
    line[32 * 32 + 16] = 0xDD;
    EXPECT(hears(line, lost, 60) && answer[JK_LOSSES] == 1 && answer[JK_HELD] == 0);
    line[16 * 32 + 16] = 0xDD;
    line[63 * 32 + 16] = 0x00;
    EXPECT(hears(line, late, 0) && answer[JK_FIRST] == 63 && answer[JK_MULTIFRAMES] == 0);
    line[63 * 32 + 16] = 0x10;
    EXPECT(hears(line, none, 0));
}

/* Whether this is said of a place of the line's first octets, with zeros behind. */
static int said(size_t octets, uint64_t place, enum jk_condition condition, uint64_t k, uint64_t bit)
{
    uint64_t expected[JK_ANSWER] = {JK_ACCEPTED};

    expected[JK_CONDITION] = condition;
    expected[JK_K] = k;
    expected[JK_BIT] = bit;
    memset(answer, BEFORE, sizeof answer);
    return jk_why(image, octets, place, answer) == JK_ACCEPTED && !memcmp(answer, expected, sizeof answer);
}

static void asking(void)
{
    static const uint64_t most = (uint64_t)-1;

    REFUSED(jk_why(image, 2047, most, answer), JK_SHORT_IMAGE);
    REFUSED(jk_why(image, 8193, most, answer), JK_LONG_IMAGE);
    REFUSED(jk_why(image, 2048, most, answer), JK_LATE_PLACE);
    REFUSED(jk_why(image, 2048, 1, answer), JK_LATE_PLACE);

    /* a frame 0, the frame 2 behind it, and the odd frame in between */
    EXPECT(said(2048, 0, JK_STANDS, 0, 0));
    EXPECT(said(2112, 512, JK_STANDS, 7, 0));
    EXPECT(said(2112, 256, JK_FIRST_WORD, 0, 257));

    /* bits 5, 7, 257 and 514 hit, and put right again */
    image[0] ^= 0x05;
    image[32] ^= 0x40;
    image[64] ^= 0x20;
    EXPECT(said(2048, 0, JK_FIRST_WORD, 0, 5));
    image[0] ^= 0x05;
    EXPECT(said(2048, 0, JK_BIT_2, 0, 0));
    image[32] ^= 0x40;
    EXPECT(said(2048, 0, JK_SECOND_WORD, 0, 514));
    image[64] ^= 0x20;
    EXPECT(said(2048, 0, JK_STANDS, 0, 0));

    /* every signal but the first wrong */
    hit_signals(image, 1, N);
    EXPECT(said(2048, 0, JK_NO_PAIR, 0, 0));
}

/* T superframes of T1 from the front of the payload: their data link, their signalling, and the line. */
enum { T = 3 };
static uint8_t data_link[T * 12], signals[T * 96], t1_line[T * 579 + 1], bits[T * 12 + 1];

static void t1_unwritten(void)
{
    memset(t1_line, BEFORE, sizeof t1_line);
    REFUSED(jk_t1_write(payload, 575, data_link, 11, 64, t1_line, 0, answer), JK_BAD_PAYLOAD);
    REFUSED(jk_t1_write(payload, 576, data_link, 11, 64, t1_line, 0, answer), JK_BAD_OVERHEAD);
    REFUSED(jk_t1_write(payload, 576, data_link, 12, 64, t1_line, 0, answer), JK_BAD_CHECK);
    REFUSED(jk_t1_write(payload, 576, data_link, 12, 63, t1_line, 578, answer), JK_SHORT_OUTPUT);
    REFUSED(jk_t1_write_signalled(payload, 575, data_link, 11, 64, signals, 95, t1_line, 0, answer), JK_BAD_PAYLOAD);
    REFUSED(jk_t1_write_signalled(payload, 576, data_link, 11, 64, signals, 95, t1_line, 0, answer), JK_BAD_OVERHEAD);
    REFUSED(jk_t1_write_signalled(payload, 576, data_link, 12, 64, signals, 95, t1_line, 0, answer), JK_BAD_CHECK);
    REFUSED(jk_t1_write_signalled(payload, 576, data_link, 12, 63, signals, 95, t1_line, 0, answer), JK_BAD_SIGNALS);
    REFUSED(jk_t1_write_signalled(payload, 576, data_link, 12, 63, signals, 96, t1_line, 578, answer), JK_SHORT_OUTPUT);
    data_link[11] = signals[95] = 2;
    REFUSED(jk_t1_write(payload, 576, data_link, 12, 0, t1_line, 579, answer), JK_BAD_OVERHEAD);
    data_link[11] = 1;
    REFUSED(jk_t1_write_signalled(payload, 576, data_link, 12, 0, signals, 96, t1_line, 579, answer), JK_BAD_SIGNALS);
    signals[95] = 1;
    EXPECT(untouched(t1_line, sizeof t1_line));
}

/* Whether these octets are read as T1, with this answer to the last of its places, and no more is filled. */
static int t1_reads(const uint8_t *line, size_t octets, const uint64_t expected[JK_ANSWER])
{
    size_t whole = (size_t)expected[JK_T1_WHOLE];

    memset(answer, BEFORE, sizeof answer);
    memset(back, BEFORE, sizeof back);
    memset(bits, BEFORE, sizeof bits);
    return jk_t1_read(line, octets, back, sizeof back, bits, sizeof bits, answer) == JK_ACCEPTED
        && !memcmp(answer, expected, sizeof answer)
        && untouched(back + whole * 576, sizeof back - whole * 576)
        && untouched(bits + whole * 12, sizeof bits - whole * 12);
}

static void t1_reading(void)
{
    static const uint64_t clean[JK_ANSWER] = {JK_ACCEPTED, 0, T, T - 1, 0};
    static const uint64_t later[JK_ANSWER] = {JK_ACCEPTED, 1, T, T - 1, 0};
    static const uint64_t errored[JK_ANSWER] = {JK_ACCEPTED, 0, T, T - 1, 1};
    static const uint64_t second[JK_ANSWER] = {JK_ACCEPTED, 8 * 579, T - 1, T - 2, 0};
    static const uint8_t zeros[1158] = {0};
    static uint8_t late[T * 579 + 1];
    size_t i;

    memset(back, BEFORE, sizeof back);
    memset(bits, BEFORE, sizeof bits);
    REFUSED(jk_t1_read(t1_line, 1157, back, 0, bits, 0, answer), JK_SHORT_IMAGE);
    REFUSED(jk_t1_read(image, 8193, back, 0, bits, 0, answer), JK_LONG_IMAGE);
    REFUSED(jk_t1_read(zeros, 1158, back, 0, bits, 0, answer), JK_NO_PLACE);
    REFUSED(jk_t1_read(t1_line, T * 579, back, T * 576 - 1, bits, T * 12, answer), JK_SHORT_OUTPUT);
    REFUSED(jk_t1_read(t1_line, T * 579, back, T * 576, bits, T * 12 - 1, answer), JK_SHORT_OUTPUT);
    EXPECT(untouched(back, sizeof back) && untouched(bits, sizeof bits));

    /* from bit 0 on; behind one more bit; and with a bit of the second superframe hit, and of the first */
    EXPECT(t1_reads(t1_line, T * 579, clean));
    EXPECT(!memcmp(back, payload, T * 576) && !memcmp(bits, data_link, T * 12));
    for (i = 0; i < T * 579; i++) {
        late[i] |= t1_line[i] >> 1;
        late[i + 1] = (uint8_t)(t1_line[i] << 7);
    }
    EXPECT(t1_reads(late, sizeof late, later) && answer[JK_T1_PLACE] == 1);
    EXPECT(!memcmp(back, payload, T * 576) && !memcmp(bits, data_link, T * 12));
    t1_line[579 + 300] ^= 0x01;
    EXPECT(t1_reads(t1_line, T * 579, errored) && answer[JK_T1_COMPARED] == T - 1 && answer[JK_T1_ERRORED] == 1);
    t1_line[579 + 300] ^= 0x01;
    t1_line[300] ^= 0x01;
    EXPECT(t1_reads(t1_line, T * 579, second) && !memcmp(back, payload + 576, (T - 1) * 576));
}

static void t1(void)
{
    static uint8_t plain[T * 579];
    size_t i;
    uint64_t check;

    for (i = 0; i < sizeof data_link; i++)
        data_link[i] = i % 3 == 2;
    for (i = 0; i < sizeof signals; i++)
        signals[i] = i % 5 == 0;
    t1_unwritten();

    /* one superframe, its check handed on, and the rest; then all at once */
    EXPECT(jk_t1_write(payload, 576, data_link, 12, 63, t1_line, sizeof t1_line, answer) == JK_ACCEPTED);
    EXPECT(untouched(t1_line + 579, sizeof t1_line - 579));
    check = answer[JK_CHECK];
    EXPECT(jk_t1_write(payload + 576, (T - 1) * 576, data_link + 12, (T - 1) * 12, check,
                       t1_line + 579, (T - 1) * 579, answer) == JK_ACCEPTED);
    check = answer[JK_CHECK];
    EXPECT(untouched(t1_line + T * 579, 1));
    ANSWERED(jk_t1_write(payload, T * 576, data_link, T * 12, 63, plain, sizeof plain, answer), JK_ACCEPTED, check);
    EXPECT(!memcmp(t1_line, plain, sizeof plain));
    t1_reading();

    /* what is written with signalling is the payload with these bits replaced, whatever it had there */
    EXPECT(jk_t1_write_signalled(payload, T * 576, data_link, T * 12, 5, signals, T * 96,
                                 t1_line, sizeof t1_line, answer) == JK_ACCEPTED);
    check = answer[JK_CHECK];
    EXPECT(untouched(t1_line + T * 579, 1));
    memcpy(back, payload, T * 576);
    for (i = 0; i < T * 96; i++) {
        uint8_t *octet = back + i / 24 * 144 + 5 * 24 + i % 24;

        *octet = (uint8_t)((*octet & 0xFE) | signals[i]);
    }
    ANSWERED(jk_t1_write(back, T * 576, data_link, T * 12, 5, plain, sizeof plain, answer), JK_ACCEPTED, check);
    EXPECT(!memcmp(t1_line, plain, sizeof plain));
}

static void map_and_key(void)
{
    static const uint8_t stage[4] = {JK_KIND_STAGE, 5, 9, 0}, commit[4] = {JK_KIND_COMMIT, 0, 0, 0};
    static const uint8_t look[4] = {JK_KIND_READ, 5, 0, 0}, drop[4] = {JK_KIND_DROP, 0, 0, 0};
    static const uint8_t unknown[4] = {5, 5, 9, 0}, outside[4] = {JK_KIND_STAGE, 5, 32, 0};
    uint8_t state[JK_STATE], was[JK_STATE];

    jk_start(state);
    state[0] = 7; /* no 1, so the flag is off, and neither a reading nor a refusal sets it */
    memcpy(was, state, sizeof was);
    ANSWERED(jk_host(state, look, 4, answer), JK_ACCEPTED, 5);
    REFUSED(jk_host(state, stage, 3, answer), JK_BAD_RECORD);
    REFUSED(jk_host(state, unknown, 4, answer), JK_BAD_KIND);
    REFUSED(jk_host(state, outside, 4, answer), JK_BAD_SLOT);
    REFUSED(jk_host(state, stage, 4, answer), JK_KEY_OFF);
    EXPECT(jk_key(state, 256) == JK_BAD_POSITION);
    EXPECT(!memcmp(state, was, sizeof was));

    EXPECT(jk_key(state, 1) == JK_ACCEPTED && state[0] == 1);
    REFUSED(jk_host(state, commit, 4, answer), JK_NOTHING_STAGED);
    ANSWERED(jk_host(state, stage, 4, answer), JK_ACCEPTED, 0);
    ANSWERED(jk_host(state, drop, 4, answer), JK_ACCEPTED, 0);
    ANSWERED(jk_host(state, stage, 4, answer), JK_ACCEPTED, 0);
    ANSWERED(jk_host(state, commit, 4, answer), JK_ACCEPTED, 0);
    ANSWERED(jk_host(state, look, 4, answer), JK_ACCEPTED, 5);
    EXPECT(jk_boundary(state) == JK_ACCEPTED);
    ANSWERED(jk_host(state, look, 4, answer), JK_ACCEPTED, 9);

    memset(back, BEFORE, sizeof back);
    EXPECT(jk_map(state, payload, 497, back, sizeof back) == JK_BAD_PAYLOAD);
    EXPECT(jk_map(state, payload, 496, back, 495) == JK_SHORT_OUTPUT);
    EXPECT(untouched(back, sizeof back));
    EXPECT(jk_map(state, payload, 496, back, sizeof back) == JK_ACCEPTED);
    EXPECT(back[4] == payload[8] && back[5] == payload[5] && untouched(back + 496, sizeof back - 496));
}

int main(void)
{
    writing();
    reading();
    streaming();
    signalling();
    asking();
    t1();
    map_and_key();
    if (!failed)
        printf("ok\n");
    return failed;
}
