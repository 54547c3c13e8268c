/* Host interface of the ACON library. Link target/staticlib/libacon.a.
 *
 * Every call answers one 64-bit number:
 *
 *   bits  0 to  7   the number below: 0 done, anything else a refusal
 *   bits  8 to 31   the first value of the answer
 *   bits 32 to 63   the second value of the answer, 0 where there is none
 *
 * Each number is a question over the whole input. The lowest one that applies
 * is given. In a refusal both values are 0 unless said otherwise, and no lent
 * byte has changed.
 *
 * The second value of the refusals 2 to 6 is the offset of the fault in the text,
 * in bytes from 0:
 *
 *   2           the length of the longest start that is well-formed UTF-8
 *   3           the length of the longest start that some JSON text of nesting at
 *               most 8 begins with; the text's length where it only ends too early
 *   4, 5        the first byte of the first faulty string or number, for a string
 *               its quotation mark
 *   6           the same of the first key that is equal to an earlier key of its
 *               object, over all objects
 *
 * Guarantees
 *
 * Answers      Every call ends with an answer, whatever bytes it is lent.
 * Reentrant    A call keeps nothing for the next one. Threads may call at the
 *              same time, as long as none writes what another is lent.
 * No heap      Nothing is allocated, and nothing has to be freed.
 * No globals   The archive has constants, and no variables.
 * Alignment    Any: all that is lent is bytes.
 * libc         Only memcpy and memset are called.
 * Stack        At most, measured on the inputs that go deepest, refused ones too:
 *                acon_canonical   28 KB
 *                acon_load       176 KB
 *                acon_judge      164 KB
 *                acon_resolve    190 KB
 * NULL         A pointer may be NULL where its length is 0, and nowhere else.
 *              This header sees to it, with gcc and clang: the call then lends
 *              a byte of its own, which is not read. With other compilers no
 *              pointer may be NULL.
 * Overlap      Forbidden. What a call may write must share no byte with
 *              anything else that is lent to it. What is only read may overlap.
 *              Nobody can check this: the library is lent addresses, and two
 *              addresses that are far apart can be mapped to the same memory.
 *              The proofs take it for granted. A compiler sees it only where
 *              one call names the same pointer twice.
 * Platform     x86-64 with ELF objects and the System V calling convention.
 *
 * What a test can see of these is tested, by tests/header.py and tests/stack.py.
 */
#ifndef ACON_H
#define ACON_H

#include <stddef.h>
#include <stdint.h>

/* Version of this interface. */
#define ACON_VERSION "2.0.1"
#define ACON_VERSION_MAJOR 2
#define ACON_VERSION_MINOR 0
#define ACON_VERSION_PATCH 1

/* What a compiler can check of a call. With these gcc -Wall warns of an output
 * that is the same pointer as an input (-Wrestrict), of a dropped answer
 * (-Wunused-result), and of NULL with a length other than 0 (-Wnonnull). In C++
 * and in compilers that do not have them they are nothing. */
#if defined(__GNUC__) && !defined(__cplusplus)
#define ACON_RESTRICT __restrict
#define ACON_USE __attribute__((warn_unused_result))
#else
#define ACON_RESTRICT
#define ACON_USE
#endif
#if defined(__GNUC__) && __GNUC__ >= 10 && !defined(__cplusplus)
#define ACON_ACCESS(mode, pointer, length) __attribute__((access(mode, pointer, length)))
#else
#define ACON_ACCESS(mode, pointer, length)
#endif

/* Where names of symbols can be given, each call below is an inline function,
 * which lends no NULL where a length is 0; they stand at the end. Elsewhere it is
 * the archive's. */
#if defined(__GNUC__) && defined(__ELF__)
#define ACON_CALL ACON_USE static inline uint64_t
#define ACON_SYMBOL(name) __asm__(name)
#else
#define ACON_CALL ACON_USE uint64_t
#define ACON_SYMBOL(name)
#endif

#ifdef __cplusplus
extern "C" {
#endif

enum {
    ACON_DONE = 0,       /* done */
    ACON_TOO_LONG = 1,   /* text over 16,384 bytes */
    ACON_NOT_UTF8 = 2,   /* text is not UTF-8 (RFC 3629) */
    ACON_NOT_JSON = 3,   /* not a JSON text (RFC 8259) of nesting at most 8; empty text too */
    ACON_BAD_STRING = 4, /* a string or key with a lone surrogate escape, or which
                            after unescaping holds U+0000 to U+001F or U+007F */
    ACON_BAD_NUMBER = 5, /* a number with fraction or exponent, -0, or outside
                            -2,147,483,648 to 2,147,483,647 */
    ACON_EQUAL_KEYS = 6, /* an object with two keys that are equal after unescaping */
    ACON_BAD_FIELD = 7,  /* a manifest with a field that is unknown, missing or against
                            the rules for it, unless that is 8 or 9 */
    ACON_BAD_FORM = 8,   /* a reference, a rule or an alias of bad form */
    ACON_SAME_ALIAS = 9, /* an alias twice in one group */
    ACON_BAD_ID = 10,    /* an Image ID of bad form */
    ACON_BAD_STORE = 11, /* the bytes in use are not a well-formed store, or are more
                            than the buffer has */
    ACON_SAME_ID = 12,   /* the store holds an image with that ID */
    ACON_CLASH = 13,     /* the image clashes with one of the store */
    ACON_FULL = 14,      /* the store holds 64 images, or the record is longer than what
                            is left of the buffer */
    ACON_BAD_LIST = 15,  /* the layer list has a bad algorithm byte or a cut entry */
    ACON_NO_IMAGE = 16,  /* no image of the store has that place */
    ACON_NO_ALIAS = 17,  /* an alias on a layer's path is defined by no image */
    ACON_ENDLESS = 18,   /* a layer's path never meets a digest */
    ACON_ABSENT = 19,    /* the digest that a layer meets is not in the layer list */
    ACON_NO_SPACE = 20   /* the output is longer than the buffer */
};

/* Longest text, in bytes, and deepest nesting of arrays and objects, the
 * outermost counting 1. */
enum { ACON_TEXT_MAX = 16384, ACON_NESTING_MAX = 8 };

/* Most images of a store, and most bytes of a report and of what acon_resolve
 * writes: 64 layers of 49 bytes. */
enum { ACON_IMAGES_MAX = 64, ACON_REPORT_MAX = 2 * 64 * 63, ACON_OUTPUT_MAX = 64 * 49 };

/* ---- Reading an answer */

/* The number of an answer. */
static inline unsigned acon_number(uint64_t answer)
{
    return (unsigned)(answer & 0xff);
}

/* The first value of an answer. */
static inline uint32_t acon_first(uint64_t answer)
{
    return (uint32_t)(answer >> 8) & 0xffffff;
}

/* The second value of an answer. */
static inline uint32_t acon_second(uint64_t answer)
{
    return (uint32_t)(answer >> 32);
}

/* Whether the number of an answer is 0. */
static inline int acon_is_done(uint64_t answer)
{
    return acon_number(answer) == ACON_DONE;
}

/* Whether an answer tells where the fault of a text is: the numbers 2 to 6 do. */
static inline int acon_has_offset(uint64_t answer)
{
    return acon_number(answer) >= ACON_NOT_UTF8 && acon_number(answer) <= ACON_EQUAL_KEYS;
}

/* The offset of the fault in the text, in bytes from 0; 0 where the answer tells
 * none. It is the text's length where the text only ends too early. */
static inline size_t acon_offset(uint64_t answer)
{
    return acon_has_offset(answer) ? acon_second(answer) : 0;
}

/* A short sentence for a number, with no capital and no full stop, so that it
 * can follow a colon. It is a constant; nothing has to be freed. */
static inline const char *acon_text(unsigned number)
{
    switch (number) {
    case ACON_DONE: return "done";
    case ACON_TOO_LONG: return "the text has more than 16,384 bytes";
    case ACON_NOT_UTF8: return "the text is not UTF-8";
    case ACON_NOT_JSON: return "the text is not JSON of nesting at most 8";
    case ACON_BAD_STRING: return "a string has a lone surrogate or a control character";
    case ACON_BAD_NUMBER: return "a number is not whole, is -0 or is outside 32 bits with a sign";
    case ACON_EQUAL_KEYS: return "an object has two equal keys";
    case ACON_BAD_FIELD: return "a field of the manifest is unknown, missing or against its rules";
    case ACON_BAD_FORM: return "a reference, a rule or an alias has a bad form";
    case ACON_SAME_ALIAS: return "an alias stands twice in one group";
    case ACON_BAD_ID: return "the Image ID has a bad form";
    case ACON_BAD_STORE: return "the store is not well-formed";
    case ACON_SAME_ID: return "the store holds an image with this ID";
    case ACON_CLASH: return "the image clashes with one of the store";
    case ACON_FULL: return "the store holds 64 images, or its buffer lacks space for the record";
    case ACON_BAD_LIST: return "the layer list has a bad algorithm byte or a cut entry";
    case ACON_NO_IMAGE: return "the store has no image at this place";
    case ACON_NO_ALIAS: return "an alias on the layer's path is defined by no image";
    case ACON_ENDLESS: return "the layer's path never meets a digest";
    case ACON_ABSENT: return "the digest that the layer meets is not in the layer list";
    case ACON_NO_SPACE: return "the output is longer than the buffer";
    default: return "no call gives this number";
    }
}

/* Most bytes of a sentence by acon_sentence, with the byte 0 that ends it. */
enum { ACON_SENTENCE_MAX = 120 };

/* Writes a sentence for an answer into an array of that many bytes, and gives it
 * back: that of acon_text, and in the refusals 2 to 6 the offset of the fault
 * after it, as in "the text is not UTF-8, at byte 17". In the examples below said
 * is such an array. */
static inline char *acon_sentence(uint64_t answer, char sentence[ACON_SENTENCE_MAX])
{
    const char *part = acon_text(acon_number(answer));
    uint32_t offset = acon_second(answer), power = 1;
    size_t n = 0;
    while (*part)
        sentence[n++] = *part++;
    if (acon_has_offset(answer)) {
        for (part = ", at byte "; *part; part++)
            sentence[n++] = *part;
        while (offset / power > 9)
            power *= 10;
        for (; power > 0; power /= 10)
            sentence[n++] = (char)('0' + offset / power % 10);
    }
    sentence[n] = 0;
    return sentence;
}

/* The answers of the four calls, by the names of their values. */
typedef struct {
    unsigned number;
    size_t length; /* of the form, in bytes */
    size_t offset; /* of the text's fault; 0 unless number is 2 to 6 */
} acon_form;

typedef struct {
    unsigned number;
    size_t used;   /* the new used count; 0 in a refusal, which is no used count */
    size_t offset; /* of the manifest's fault; 0 unless number is 2 to 6 */
} acon_loaded;

typedef struct {
    unsigned number;
    size_t pairs; /* of two bytes each */
} acon_judged;

typedef struct {
    unsigned number;
    size_t length; /* of the output, in bytes; 0 unless number is 0 */
    size_t layer;  /* the first layer that fails; 0 unless number is 17, 18 or 19 */
} acon_resolved;

static inline acon_form acon_form_of(uint64_t answer)
{
    acon_form form;
    form.number = acon_number(answer);
    form.length = acon_first(answer);
    form.offset = acon_offset(answer);
    return form;
}

static inline acon_loaded acon_loaded_of(uint64_t answer)
{
    acon_loaded loaded;
    loaded.number = acon_number(answer);
    loaded.used = acon_first(answer);
    loaded.offset = acon_offset(answer);
    return loaded;
}

static inline acon_judged acon_judged_of(uint64_t answer)
{
    acon_judged judged;
    judged.number = acon_number(answer);
    judged.pairs = acon_first(answer);
    return judged;
}

static inline acon_resolved acon_resolved_of(uint64_t answer)
{
    acon_resolved resolved;
    resolved.number = acon_number(answer);
    resolved.length = resolved.number == ACON_DONE ? acon_first(answer) : 0;
    resolved.layer = resolved.number >= ACON_NO_ALIAS && resolved.number <= ACON_ABSENT
                         ? acon_first(answer)
                         : 0;
    return resolved;
}

/* ---- The calls */

/* Writes the canonical form of a JSON text into out.
 *
 * Keys stand in rising order of their unescaped UTF-8 bytes at every level, a
 * key before those that it begins. There is no space outside strings. Strings
 * are raw UTF-8 in which only the quotation mark and the backslash are escaped,
 * each by one backslash. Arrays keep their order. The form is never longer than
 * the text, so a buffer of text_len bytes is always enough.
 *
 * Asks 1 to 6 of the text, and 20 of the buffer.
 *
 * Answers an acon_form. First value: the length of the form. Second value: in 2
 * to 6 the offset of the fault in the text. On success the bytes of out past the
 * form stay as they were.
 *
 * Example:
 *     uint64_t answer = acon_canonical(text, text_len, out, sizeof out);
 *     if (acon_is_done(answer)) fwrite(out, 1, acon_form_of(answer).length, stdout);
 *     else printf("refused: %s\n", acon_sentence(answer, said));
 */
ACON_CALL acon_canonical(const uint8_t *text, size_t text_len, uint8_t *ACON_RESTRICT out,
                         size_t out_len)
    ACON_SYMBOL("acon_lend_canonical") ACON_ACCESS(read_only, 1, 2) ACON_ACCESS(write_only, 3, 4);

/* Loads an image into a store.
 *
 * A store is the first bytes of a buffer, of which the caller keeps the count in
 * used: the records of its images, one after the other. No bytes are the empty
 * store. The image has the Image ID id, as text of the form
 * HASH/SIGNER/MANIFEST, and the manifest as JSON text; its record, with the
 * manifest in canonical form, goes after those that are there.
 *
 * Asks 1 to 9 of the manifest, 10 of the ID, 11 of the store, and 12 to 14 of
 * the image and the store.
 *
 * Answers an acon_loaded. First value: the new used count. Second value: in 2 to
 * 6 the offset of the fault in the manifest as it was lent; a store's faults, 11,
 * give none. On success the bytes of the buffer past the record stay as they
 * were, as do those before it. A refusal changes no byte, and the caller keeps
 * the used count that it has.
 *
 * Example:
 *     uint64_t answer = acon_load(id, id_len, manifest, manifest_len, store, sizeof store, used);
 *     if (acon_is_done(answer)) used = acon_loaded_of(answer).used;
 *     else printf("not loaded: %s\n", acon_sentence(answer, said));
 */
ACON_CALL acon_load(const uint8_t *id, size_t id_len, const uint8_t *manifest, size_t manifest_len,
                    uint8_t *ACON_RESTRICT buffer, size_t buffer_len, size_t used)
    ACON_SYMBOL("acon_lend_load") ACON_ACCESS(read_only, 1, 2) ACON_ACCESS(read_only, 3, 4)
    ACON_ACCESS(write_only, 5, 6); /* by read_write gcc would ask a new buffer to have been set */

/* Judges the images of a store by their launch policies, and writes a report.
 *
 * The store is the first used bytes of a buffer, as for acon_load. An image
 * accepts another if one of the rules in accepts of its policy matches that one.
 * A chain is a list of images of the store in which each accepts the next. A
 * guard is an image with rejectUnaccepted true. The report lists each pair of a
 * guard and another image to which no chain leads from it, in two bytes: the
 * guard's place, then the other's. A place is the index of an image's record in
 * the store, from 0. Pairs stand by guard and then by other, each once.
 *
 * The store is admitted if the number is 0 and there are 0 pairs: every guard
 * leads to every other image. Pairs are no refusal, and the host decides what
 * follows from them.
 *
 * Asks 11 of the store, and 20 of the report buffer: whether it has fewer than
 * two bytes for each pair. ACON_REPORT_MAX bytes are always enough.
 *
 * Answers an acon_judged. First value: the number of pairs. Second value: 0.
 * On success the bytes of the report buffer past the pairs stay as they were. The
 * store is only read.
 *
 * Example:
 *     uint64_t answer = acon_judge(store, sizeof store, used, report, sizeof report);
 *     if (!acon_is_done(answer)) printf("not judged: %s\n", acon_text(acon_number(answer)));
 *     else puts(acon_judged_of(answer).pairs == 0 ? "admitted" : "not admitted");
 */
ACON_CALL acon_judge(const uint8_t *store, size_t store_len, size_t used,
                     uint8_t *ACON_RESTRICT report, size_t report_len)
    ACON_SYMBOL("acon_lend_judge") ACON_ACCESS(read_only, 1, 2) ACON_ACCESS(write_only, 4, 5);

/* Finds the layers of one image of a store, and writes their digests.
 *
 * The store is the first used bytes of a buffer, as for acon_load, and image is
 * the place of the image: the index of its record in the store, from 0. layers
 * lists the layers that the host has, in any order; repeats are harmless. An
 * entry of the list is a byte for the algorithm (1 sha224, 2 sha256, 3 sha384)
 * and the digest, of 28, 32 or 48 bytes. No bytes are the empty list.
 *
 * Each entry of layers in the image's manifest is a digest, or an alias of the
 * form signer/HASH/SIGNER/ALIAS. An alias is followed to its object, and from
 * there on until a digest is met. It is defined by every image of the store,
 * this one too, whose ID has that HASH and SIGNER and whose aliases list ALIAS
 * in contents; its object is the reference under which it stands there. A name
 * counts with all its bytes, and names in self are none of layers. The digest
 * that is met has to be in the layer list, under the same algorithm. The output
 * has the same form as the list: an entry for each layer, in the order of the
 * manifest, twice for a layer that stands there twice.
 *
 * Asks 11 of the store, 15 of the list, 16 of the place, 17 to 19 of each layer,
 * and 20 of the buffer. Of 17, 18 and 19 the first layer that fails decides, also
 * where a later one has a lower number. It is 20 where no layer fails and the
 * output is longer than the buffer; ACON_OUTPUT_MAX bytes are always enough.
 *
 * Answers an acon_resolved. First value: the length of the output in bytes; in
 * 17, 18 and 19 the index of that layer in the manifest, from 0. Second value: 0.
 * On success the bytes of out past the output stay as they were. The store and
 * the list are only read.
 *
 * Example:
 *     uint64_t answer = acon_resolve(store, sizeof store, used, list, list_n, 0, out, sizeof out);
 *     acon_resolved r = acon_resolved_of(answer);
 *     printf("%s: %zu bytes, layer %zu\n", acon_text(r.number), r.length, r.layer);
 */
ACON_CALL acon_resolve(const uint8_t *store, size_t store_len, size_t used, const uint8_t *layers,
                       size_t layers_len, size_t image, uint8_t *ACON_RESTRICT out, size_t out_len)
    ACON_SYMBOL("acon_lend_resolve") ACON_ACCESS(read_only, 1, 2) ACON_ACCESS(read_only, 4, 5)
    ACON_ACCESS(write_only, 7, 8);

/* ---- Right and wrong
 *
 * gcc -Wall warns of these:
 *
 *   wrong: acon_canonical(text, text_len, out, sizeof out);
 *   right: answer = acon_canonical(text, text_len, out, sizeof out);
 *          -Wunused-result: nobody would know whether out has been written.
 *
 *   wrong: answer = acon_canonical(out, text_len, out, sizeof out);
 *   right: answer = acon_canonical(text, text_len, out, sizeof out);
 *          -Wrestrict: the form cannot take the place of the text.
 *
 *   wrong: answer = acon_canonical(NULL, 2, out, sizeof out);
 *   right: answer = acon_canonical(NULL, 0, out, sizeof out);
 *          -Wnonnull, where the length is known to be other than 0.
 *
 * Nobody warns of these:
 *
 *   wrong: if (acon_canonical(text, text_len, out, sizeof out)) return 1;
 *   right: if (!acon_is_done(acon_canonical(text, text_len, out, sizeof out))) return 1;
 *          A success has a length, so it is not 0 as a whole.
 *
 *   wrong: if (answer == ACON_NOT_JSON) return 1;
 *   right: if (acon_number(answer) == ACON_NOT_JSON) return 1;
 *          A refusal may have an offset, so it is not its number as a whole.
 *
 *   wrong: putchar(text[acon_offset(answer)]);
 *   right: if (acon_offset(answer) < text_len) putchar(text[acon_offset(answer)]);
 *          A text that ends too early has its fault at its end, where no byte stands.
 *
 *   wrong: puts((const char *)out);
 *   right: fwrite(out, 1, acon_form_of(answer).length, stdout);
 *          No byte 0 ends what a call writes.
 *
 *   wrong: used = acon_loaded_of(answer).used;
 *   right: if (acon_is_done(answer)) used = acon_loaded_of(answer).used;
 *          A refusal has 0 there, and the store would be lost.
 *
 *   wrong: answer = acon_load(id, id_len, manifest, manifest_len, store, used, used);
 *   right: answer = acon_load(id, id_len, manifest, manifest_len, store, sizeof store, used);
 *          The length is that of the whole buffer; else there is no space for the record.
 *
 *   wrong: admitted = acon_is_done(answer);
 *   right: admitted = acon_is_done(answer) && acon_judged_of(answer).pairs == 0;
 *          Pairs are no refusal.
 *
 *   wrong: fwrite(report, 1, acon_judged_of(answer).pairs, stdout);
 *   right: fwrite(report, 2, acon_judged_of(answer).pairs, stdout);
 *          A pair has two bytes.
 */

/* ---- How the calls reach the archive
 *
 * A call of the header has a symbol of its own, else it would be taken for the
 * archive's, whose symbol has the name of the call. NULL with length 0 is replaced
 * by a byte that is never read or written. NULL with another length stays, so that
 * the first access shows the fault, and no byte is read that was not lent.
 */
#if defined(__GNUC__) && defined(__ELF__)
uint64_t acon_symbol_canonical(const uint8_t *text, size_t text_len, uint8_t *out, size_t out_len)
    ACON_SYMBOL("acon_canonical");
uint64_t acon_symbol_load(const uint8_t *id, size_t id_len, const uint8_t *manifest,
                          size_t manifest_len, uint8_t *buffer, size_t buffer_len, size_t used)
    ACON_SYMBOL("acon_load");
uint64_t acon_symbol_judge(const uint8_t *store, size_t store_len, size_t used, uint8_t *report,
                           size_t report_len) ACON_SYMBOL("acon_judge");
uint64_t acon_symbol_resolve(const uint8_t *store, size_t store_len, size_t used,
                             const uint8_t *layers, size_t layers_len, size_t image, uint8_t *out,
                             size_t out_len) ACON_SYMBOL("acon_resolve");

ACON_CALL acon_canonical(const uint8_t *text, size_t text_len, uint8_t *ACON_RESTRICT out,
                         size_t out_len)
{
    uint8_t none = 0;
    return acon_symbol_canonical(text || text_len ? text : &none, text_len,
                                 out || out_len ? out : &none, out_len);
}

ACON_CALL acon_load(const uint8_t *id, size_t id_len, const uint8_t *manifest, size_t manifest_len,
                    uint8_t *ACON_RESTRICT buffer, size_t buffer_len, size_t used)
{
    uint8_t none = 0;
    return acon_symbol_load(id || id_len ? id : &none, id_len,
                            manifest || manifest_len ? manifest : &none, manifest_len,
                            buffer || buffer_len ? buffer : &none, buffer_len, used);
}

ACON_CALL acon_judge(const uint8_t *store, size_t store_len, size_t used,
                     uint8_t *ACON_RESTRICT report, size_t report_len)
{
    uint8_t none = 0;
    return acon_symbol_judge(store || store_len ? store : &none, store_len, used,
                             report || report_len ? report : &none, report_len);
}

ACON_CALL acon_resolve(const uint8_t *store, size_t store_len, size_t used, const uint8_t *layers,
                       size_t layers_len, size_t image, uint8_t *ACON_RESTRICT out, size_t out_len)
{
    uint8_t none = 0;
    return acon_symbol_resolve(store || store_len ? store : &none, store_len, used,
                               layers || layers_len ? layers : &none, layers_len, image,
                               out || out_len ? out : &none, out_len);
}
#endif

#ifdef __cplusplus
}
#endif

#endif
