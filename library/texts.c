/* The texts of codes and reasons, and whether the library was proved. Nothing is proved of these; `tests/library`
   compares the texts with the words that `recover` prints. */
#include "wolzenn.h"

/* `library/build` sets it to 1 where it links what was proved. */
#ifndef WZ_PROVED
#define WZ_PROVED 0
#endif

bool wz_is_proved(void) {
    return WZ_PROVED;
}

#define COUNT_OF(texts) (sizeof(texts) / sizeof((texts)[0]))

const char *wz_code_text(wz_code code) {
    static const char *const texts[] = {
        [WZ_DONE] = "done",
        [WZ_NO_MEMORY] = "no memory",
        [WZ_CLOSED] = "the handle holds nothing of this kind",
        [WZ_SMALL] = "the buffer is too small",
        [WZ_END] = "there is no more",
        [WZ_TOO_LARGE] = "the batch would have too many bytes",
        [WZ_DAMAGE] = "the mode doesn't accept the end of the log",
        [WZ_NO_BATCH] = "the bytes are no batch",
        [WZ_RANGE] = "a number is out of its range",
        [WZ_UNREAD] = "a record, after a stretch that isn't read",
    };
    return (size_t)code < COUNT_OF(texts) ? texts[code] : "no code of this version";
}

const char *wz_why_text(wz_why why) {
    static const char *const texts[] = {
        [WZ_WHY_CLEAN] = "clean",
        [WZ_WHY_SHORT_HEADER] = "shortheader",
        [WZ_WHY_ZEROS] = "zeros",
        [WZ_WHY_BAD_LENGTH] = "badlength",
        [WZ_WHY_BAD_TYPE] = "badtype",
        [WZ_WHY_BAD_CHECKSUM] = "badchecksum",
        [WZ_WHY_BAD_TRAILER] = "badtrailer",
        [WZ_WHY_OLD_LOG] = "oldlog",
        [WZ_WHY_BAD_ORDER] = "badorder",
        [WZ_WHY_UNFINISHED] = "unfinished",
        [WZ_WHY_SHORT] = "short",
        [WZ_WHY_BAD_VARINT] = "badvarint",
        [WZ_WHY_TAG] = "tag",
        [WZ_WHY_COUNT] = "count",
        [WZ_WHY_ORDER] = "order",
        [WZ_WHY_HIGH] = "high",
    };
    return (size_t)why < COUNT_OF(texts) && texts[why] != NULL ? texts[why] : "unknown";
}
