/*
 * Jikhvanto: E1 multiframes and their signalling read and written, a line in chunks, and the slot map with its key; and
 * T1 with the extended superframe read and written.
 *
 * Every call but jk_start and jk_stream_start returns its number: JK_ACCEPTED, which is 0, or that of its refusal.
 * Where several refusals apply, it is the first in the call's list below. An answer has JK_ANSWER places: the number,
 * the values, then zeros. A refused call gives zeros in every other place of its answer and changes nothing else: no
 * octet of an output, and no octet of a state or a stream. There is one exception: JK_BASIC_ONLY of jk_read and of
 * jk_end has a value, JK_PLACE, and zeros behind it. In an accepted call the octets of an output past those needed keep
 * what they held.
 *
 * All this is proved of the library's source. It rests on what no proof of it can see, and you must keep:
 *   - every pointer is valid for its length, and none is NULL, even where its length is 0;
 *   - a buffer that a call writes overlaps no other buffer of that call;
 *   - a call finds its stack: jk_feed takes under 11,000 octets of it; jk_read, jk_signals, jk_write and
 *     jk_write_signalled under 5,000; jk_t1_write_signalled under 1,500; the others under 500.
 * The library holds nothing between calls, so calls on buffers of their own may run side by side.
 *
 * From one version to the next no number and no place of an answer changes its meaning, but for what is put right and
 * named here:
 *   - since 0.4.0 JK_FAREND counts every E bit that is 0 in the multiframes used; before, it left out multiframes whose
 *     second block was not compared or did not agree;
 *   - since 0.5.0 number 3 is split: where no place stands it is JK_BASIC_ONLY, 15, with the first place that has room
 *     and basic alignment, and JK_NO_PLACE, 3, only where none has; before, it was 3 in either case;
 *   - since 0.7.0 alignment is also lost at the third odd frame in a row with a bit 2 of 0 (G.706 4.1.1), so JK_LOST
 *     may be odd, JK_USED and the counts after it smaller, and jk_signals may have fewer multiframes to read; before,
 *     it was lost by words alone.
 * New numbers and places are only ever added at the end: numbers after the last, places after a call's last value,
 * where today it gives zeros.
 */
#ifndef JIKHVANTO_H
#define JIKHVANTO_H

#include <stddef.h>
#include <stdint.h>

#define JK_VERSION_MAJOR 0
#define JK_VERSION_MINOR 9
#define JK_VERSION_PATCH 0
#define JK_VERSION "0.9.0"

#define JK_ANSWER 16          /* places of an answer */
#define JK_STATE 99           /* octets of a state */
#define JK_STREAM_OCTETS 2144 /* octets of a stream */

/* The numbers. */
enum jk_number {
    JK_ACCEPTED = 0,
    JK_SHORT_IMAGE = 1,     /* the image, or the joined line, is under 2,048 octets; of T1, the image is under 1,158 */
    JK_LONG_IMAGE = 2,      /* the image is over 8,192 octets */
    JK_NO_PLACE = 3,        /* no place with room, 16,384 bits to the image's end, has basic alignment; of T1, none
                               stands */
    JK_SHORT_OUTPUT = 4,    /* an output is shorter than the call needs */
    JK_BAD_PAYLOAD = 5,     /* the payload isn't 496n octets, n from 1 to 16; of T1, 576n, n from 1 to 14 */
    JK_BAD_OVERHEAD = 6,    /* the overhead isn't 8n octets, or one has a bit that must be 0; of T1, the data link
                               isn't 12n octets of 0 or 1 */
    JK_BAD_CHECK = 7,       /* the carried check is over 15; of T1, over 63 */
    JK_BAD_RECORD = 8,      /* the record isn't 4 octets */
    JK_BAD_KIND = 9,        /* the kind isn't 1 to 4 */
    JK_BAD_SLOT = 10,       /* kind 1 or 3 with a not 1 to 31, or kind 1 with b over 31 */
    JK_KEY_OFF = 11,        /* kind 1, 2 or 4 with the flag off */
    JK_NOTHING_STAGED = 12, /* kind 2 or 4 with nothing staged */
    JK_BAD_POSITION = 13,   /* the key's position isn't 0 or 1 */
    JK_LATE_PLACE = 14,     /* fewer than 16,384 bits from the place to the end of the image */
    JK_BASIC_ONLY = 15,     /* a place with room has basic alignment, but none stands; jk_read and jk_end say which */
    JK_BAD_SIGNALS = 16,    /* XY isn't n octets of 0 to 15, or ABCD isn't 30n octets of 1 to 15; of T1, the
                               signalling isn't 96n octets of 0 or 1 */
    JK_LONG_LINE = 17,      /* with the chunk the joined line would be over 16,777,216 octets */
    JK_ENDED = 21           /* the stream has ended, or comes from no calls */
};

/* The places of an answer; the number is in place 0 of each. */
enum jk_place {
    JK_NUMBER = 0,

    /* jk_read, jk_end */
    JK_PLACE = 1,     /* the bit at which alignment stands; with JK_BASIC_ONLY the first place with basic alignment */
    JK_START = 2,     /* the bit at which the first multiframe starts */
    JK_WHOLE = 3,     /* whole multiframes from there to the end of the image */
    JK_USED = 4,      /* those before the one in which alignment is lost */
    JK_LOST = 5,      /* the frame, numbered from the start, at which it is lost, even or odd; 0 where it is not */
    JK_WORDS = 6,     /* wrong alignment words in the multiframes used */
    JK_COMPARED = 7,  /* blocks compared with the check bits after them */
    JK_ERRORED = 8,   /* those of them that differ */
    JK_FAREND = 9,    /* E bits that are 0 in the multiframes used */
    JK_WORDBITS = 10, /* wrong bits of the alignment words in the multiframes used, 1 to 7 for each wrong word */
    JK_CAUSE = 11,    /* by what alignment is lost, of enum jk_cause */

    /* jk_feed */
    JK_LEFT = 1,      /* multiframes that left with the chunk */

    /* jk_signals */
    JK_MULTIFRAMES = 1, /* signalling multiframes read */
    JK_FIRST = 2,       /* the frame, numbered from the start, at which they are first aligned with; 0 for none */
    JK_LOSSES = 3,      /* how often alignment with them is lost */
    JK_HELD = 4,        /* 1 where it is held after the last frame used, else 0 */
    JK_X0 = 5,          /* these four of the last one read; X 1 and Y 0 where none is, or alignment is not held */
    JK_X1 = 6,
    JK_X2 = 7,
    JK_Y = 8,

    /* jk_why */
    JK_CONDITION = 1, /* what is said of the place, of enum jk_condition */
    JK_K = 2,         /* JK_STANDS: the least k, 0 to 18; the first multiframe known to begin starts at the place + 512k */
    JK_BIT = 3,       /* JK_FIRST_WORD, JK_SECOND_WORD: the bit of the image that is the first wrong one of the word */

    /* jk_write, jk_write_signalled, jk_t1_write, jk_t1_write_signalled */
    JK_CHECK = 1,     /* the check of the last block, or of T1 the last superframe, for the next call */

    /* jk_t1_read */
    JK_T1_PLACE = 1,    /* the bit at which the first superframe starts */
    JK_T1_WHOLE = 2,    /* whole superframes from there to the end of the image */
    JK_T1_COMPARED = 3, /* superframes compared with the check bits after them: all but the last */
    JK_T1_ERRORED = 4,  /* those of them that differ */

    /* jk_host */
    JK_ENTRY = 1      /* the entry that a record of kind 3 reads, 0 for any other */
};

/*
 * By what alignment is lost. Words and bits 2 go by runs of their own, and it is lost at the first frame that is the
 * third in a row of either.
 */
enum jk_cause {
    JK_CAUSE_NONE = 0, /* it is not lost, and JK_LOST is 0 */
    JK_CAUSE_WORD = 1, /* three even frames in a row have a wrong alignment word; JK_LOST is even */
    JK_CAUSE_BIT2 = 2  /* three odd frames in a row have a bit 2 of 0; JK_LOST is odd */
};

/* What is said of a place p: that it stands, or which condition it fails first. */
enum jk_condition {
    JK_STANDS = 0,      /* it fails none */
    JK_FIRST_WORD = 1,  /* the alignment word in bits p + 1 to p + 7 is wrong */
    JK_BIT_2 = 2,       /* bit p + 257, bit 2 of the next frame, is 0 */
    JK_SECOND_WORD = 3, /* the alignment word in bits p + 513 to p + 519 is wrong */
    JK_NO_PAIR = 4      /* no two multiframe signals are 2, 4 or 6 ms apart */
};

/* The kinds of a host's record. */
enum jk_kind {
    JK_KIND_STAGE = 1,  /* sets staged entry a to b; where nothing is staged, a copy of the live map is staged first */
    JK_KIND_COMMIT = 2, /* makes the staged map the waiting one, in place of any that waits */
    JK_KIND_READ = 3,   /* reads live entry a */
    JK_KIND_DROP = 4    /* drops the staged map */
};

#ifdef __cplusplus
extern "C" {
#endif

/*
 * Reads an image, whose bit 0 is the most significant bit of its first octet, from the first place that stands.
 * payload takes slots 1 to 31, 496 octets a multiframe used, and slot0 takes 16 a multiframe: 7,936 and 256 always do.
 * answer: JK_PLACE to JK_CAUSE; with 15 JK_PLACE alone
 * Refused: 1 JK_SHORT_IMAGE, 2 JK_LONG_IMAGE, 3 JK_NO_PLACE, 15 JK_BASIC_ONLY, 4 JK_SHORT_OUTPUT
 */
uint64_t jk_read(const uint8_t *image, size_t image_octets,
                 uint8_t *payload, size_t payload_octets,
                 uint8_t *slot0, size_t slot0_octets,
                 uint64_t answer[JK_ANSWER]);

/*
 * A line in chunks. A stream takes a line of up to 16,777,216 octets in rows of any length, also of none, and answers
 * of all that it took, joined, what jk_read answers of an image, wherever the line was cut.
 *
 * It is in octets that you lend: twelve numbers of 64 bits, each spelt by eight octets, the highest first, and then the
 * window, 2,048 octets for the last ones of the line. The numbers are whether the stream has ended, 1 for yes; how many
 * octets are in the window, and how many came before them; what is found, 1 for basic alignment and 2 for a place that
 * stands; that place, and its k; then JK_USED, JK_LOST, JK_WORDS, JK_ERRORED, JK_FAREND and JK_WORDBITS so far.
 * Any octets are a stream: the first number is no unless it is 1, and any other number of what is found is nothing.
 * One with more than 2,048 octets in the window, or with a number over 134,217,728, comes from no calls, and counts as
 * ended. A refused call leaves every octet of the stream as it was.
 *
 * jk_stream_start makes a stream to which nothing has come. It is all zeros, so zeroed octets are a started stream.
 */
void jk_stream_start(uint8_t stream[JK_STREAM_OCTETS]);

/*
 * Takes a chunk of the line. Each multiframe leaves with the chunk that makes it whole and known to be used, in the
 * order of the line: slots 1 to 31 to payload, 496 octets each, and slot 0 to slot0, 16 octets each. Room for
 * n / 512 + 4 multiframes always does for a chunk of n octets; one that lacks room may be offered again.
 * answer: JK_LEFT
 * Refused: 21 JK_ENDED, 17 JK_LONG_LINE, 4 JK_SHORT_OUTPUT
 */
uint64_t jk_feed(uint8_t stream[JK_STREAM_OCTETS],
                 const uint8_t *chunk, size_t chunk_octets,
                 uint8_t *payload, size_t payload_octets,
                 uint8_t *slot0, size_t slot0_octets,
                 uint64_t answer[JK_ANSWER]);

/*
 * Ends the stream, and answers what is read of the joined line. After that every call on it is refused. Where it is
 * refused itself, but for 21, more chunks may follow and another end.
 * answer: JK_PLACE to JK_CAUSE; with 15 JK_PLACE alone
 * Refused: 21 JK_ENDED, 1 JK_SHORT_IMAGE, 3 JK_NO_PLACE, 15 JK_BASIC_ONLY
 */
uint64_t jk_end(uint8_t stream[JK_STREAM_OCTETS], uint64_t answer[JK_ANSWER]);

/*
 * Reads the signalling of thirty channels in slot 16 of the multiframes that jk_read uses of the same image.
 * abcd takes ABCD of channels 1 to 30 as numbers from 0 to 15, A worth 8: 30 octets a signalling multiframe read, and
 * 450 always do.
 * answer: JK_MULTIFRAMES to JK_Y
 * Refused: 1 JK_SHORT_IMAGE, 2 JK_LONG_IMAGE, 3 JK_NO_PLACE, 15 JK_BASIC_ONLY, 4 JK_SHORT_OUTPUT
 */
uint64_t jk_signals(const uint8_t *image, size_t image_octets,
                    uint8_t *abcd, size_t abcd_octets,
                    uint64_t answer[JK_ANSWER]);

/*
 * Says of a place of an image, a bit counted from 0, that it stands, or why it does not. Any number may be asked about.
 * answer: JK_CONDITION, JK_K, JK_BIT; a value that the condition does not name is 0
 * Refused: 1 JK_SHORT_IMAGE, 2 JK_LONG_IMAGE, 14 JK_LATE_PLACE
 */
uint64_t jk_why(const uint8_t *image, size_t image_octets, uint64_t place, uint64_t answer[JK_ANSWER]);

/*
 * Writes n multiframes, n from 1 to 16, from a payload of 496n octets and 8n octets of overhead to 512n octets of out.
 * An overhead octet is for one odd frame: A and Sa4 to Sa8 are its low six bits, A the highest of them; for frames 13
 * and 15 the bit worth 64 is E; all other bits are 0. check is that of the block before.
 * answer: JK_CHECK
 * Refused: 5 JK_BAD_PAYLOAD, 6 JK_BAD_OVERHEAD, 7 JK_BAD_CHECK, 4 JK_SHORT_OUTPUT
 */
uint64_t jk_write(const uint8_t *payload, size_t payload_octets,
                  const uint8_t *overhead, size_t overhead_octets,
                  uint64_t check,
                  uint8_t *out, size_t out_octets,
                  uint64_t answer[JK_ANSWER]);

/*
 * Writes as jk_write does, but slot 16 from n octets of xy, for frame 0 of each multiframe, and 30n of abcd, for
 * channels 1 to 30 in its frames 1 to 15. What the payload has in slot 16 goes nowhere.
 * An octet of xy is X0 worth 8, Y 4, X1 2 and X2 1; one of abcd is a channel's ABCD, A worth 8, which may not be 0.
 * answer: JK_CHECK
 * Refused: 5 JK_BAD_PAYLOAD, 6 JK_BAD_OVERHEAD, 7 JK_BAD_CHECK, 16 JK_BAD_SIGNALS, 4 JK_SHORT_OUTPUT
 */
uint64_t jk_write_signalled(const uint8_t *payload, size_t payload_octets,
                            const uint8_t *overhead, size_t overhead_octets,
                            uint64_t check,
                            const uint8_t *xy, size_t xy_octets,
                            const uint8_t *abcd, size_t abcd_octets,
                            uint8_t *out, size_t out_octets,
                            uint64_t answer[JK_ANSWER]);

/*
 * T1 with the extended superframe: 24 frames of 193 bits, a framing bit and the octets of channels 1 to 24. No call
 * of it takes a stream or a state.
 *
 * jk_t1_read reads an image of 1,158 to 8,192 octets, its bits as those of jk_read, from the first place that stands:
 * two whole superframes follow it, and the second carries the check of the first. payload takes the octets of the
 * channels, 576 a superframe, and link the data link, 12 octets of 0 or 1 a superframe: 8,064 and 168 always do.
 * answer: JK_T1_PLACE to JK_T1_ERRORED
 * Refused: 1 JK_SHORT_IMAGE, 2 JK_LONG_IMAGE, 3 JK_NO_PLACE, 4 JK_SHORT_OUTPUT
 */
uint64_t jk_t1_read(const uint8_t *image, size_t image_octets,
                    uint8_t *payload, size_t payload_octets,
                    uint8_t *link, size_t link_octets,
                    uint64_t answer[JK_ANSWER]);

/*
 * Writes n superframes, n from 1 to 14, from a payload of 576n octets and 12n octets of the data link, each 0 or 1, to
 * 579n octets of out. check is that of the superframe before, 0 to 63.
 * answer: JK_CHECK
 * Refused: 5 JK_BAD_PAYLOAD, 6 JK_BAD_OVERHEAD, 7 JK_BAD_CHECK, 4 JK_SHORT_OUTPUT
 */
uint64_t jk_t1_write(const uint8_t *payload, size_t payload_octets,
                     const uint8_t *link, size_t link_octets,
                     uint64_t check,
                     uint8_t *out, size_t out_octets,
                     uint64_t answer[JK_ANSWER]);

/*
 * Writes as jk_t1_write does, but the last bits of the octets in frames 6, 12, 18 and 24 of each superframe from 96n
 * octets of signalling, each 0 or 1, in the order of the line: frame 6 first, in each frame from channel 1 to 24. What
 * the payload has in these bits goes nowhere.
 * answer: JK_CHECK
 * Refused: 5 JK_BAD_PAYLOAD, 6 JK_BAD_OVERHEAD, 7 JK_BAD_CHECK, 16 JK_BAD_SIGNALS, 4 JK_SHORT_OUTPUT
 */
uint64_t jk_t1_write_signalled(const uint8_t *payload, size_t payload_octets,
                               const uint8_t *link, size_t link_octets,
                               uint64_t check,
                               const uint8_t *signalling, size_t signalling_octets,
                               uint8_t *out, size_t out_octets,
                               uint64_t answer[JK_ANSWER]);

/*
 * The state of the map and the key, in octets that you lend: the flag; whether a map is staged; whether one waits; then
 * the live, the staged and the waiting map, 32 octets each, the entry of output slot j at its index j.
 * Any octets are a state: each of the first three is off unless it is 1, and an entry over 31 counts as 0.
 * A refused call, and a record that only reads, leave every octet of the state as it was. Any other accepted call of
 * jk_host, jk_key or jk_boundary leaves the first three 0 or 1.
 *
 * jk_start makes the first state: the flag off, nothing staged, nothing waiting, and slot j taking from j.
 */
void jk_start(uint8_t state[JK_STATE]);

/*
 * Takes a host's record, 4 octets: kind, a, b, host number. a is an output slot, b an input slot or 0 for idle; those
 * that the kind does not use, and the host number, change nothing.
 * answer: JK_ENTRY
 * Refused: 8 JK_BAD_RECORD, 9 JK_BAD_KIND, 10 JK_BAD_SLOT, 11 JK_KEY_OFF, 12 JK_NOTHING_STAGED
 */
uint64_t jk_host(uint8_t state[JK_STATE], const uint8_t *record, size_t record_octets, uint64_t answer[JK_ANSWER]);

/*
 * Turns the key: to 1 it sets the flag; to 0 it clears it and drops the staged and the waiting map.
 * Refused: 13 JK_BAD_POSITION
 */
uint64_t jk_key(uint8_t state[JK_STATE], uint64_t position);

/* A multiframe boundary: a waiting map is live from here on. Never refused. */
uint64_t jk_boundary(uint8_t state[JK_STATE]);

/*
 * Puts every frame of a payload of 496n octets, n from 1 to 16, through the live map into as many octets of out:
 * output slot j holds the input slot that entry j names, or 255 where that is 0.
 * Refused: 5 JK_BAD_PAYLOAD, 4 JK_SHORT_OUTPUT
 */
uint64_t jk_map(const uint8_t state[JK_STATE],
                const uint8_t *payload, size_t payload_octets,
                uint8_t *out, size_t out_octets);

#ifdef __cplusplus
}
#endif

#endif
