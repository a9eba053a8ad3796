// Mistakes that a compiler refuses, each by its number: for `library` in this folder, which compiles this file with
// each of them, in C and in C++. With the number 0 it compiles.

#include "wolzenn.h"

int main(void) {
    wz_reader reader = WZ_HANDLE_INIT;
    wz_recovery recovery = WZ_HANDLE_INIT;
    wz_batch batch = WZ_HANDLE_INIT;
    wz_scan scan = WZ_HANDLE_INIT;
    wz_pair_lens lens = {0, 0, 0};
    wz_recovered found;
    wz_code code = wz_recover(&recovery, 0, WZ_MODE_POINT, "", 0, &found);
    if (code == WZ_DONE) code = wz_reader_open(&reader, 0);
    if (code == WZ_DONE) code = wz_batch_new(&batch);
#if MISTAKE == 1 // a handle of another kind
    code = wz_reader_open(&batch, 0);
#elif MISTAKE == 2
    code = wz_batch_put(&recovery, "a", 1, "1", 1);
#elif MISTAKE == 3
    code = wz_pair_len(&reader, 0, &lens);
#elif MISTAKE == 4
    wz_batch_close(&reader);
#elif MISTAKE == 5 // a reason that is compared with a code, and given as a mode
    if (found.end.why == WZ_END) return 1;
#elif MISTAKE == 6
    code = wz_recover(&recovery, 0, WZ_WHY_CLEAN, "", 0, &found);
#elif MISTAKE == 7 // an answer that is dropped
    wz_batch_clear(&batch);
#elif MISTAKE == 8 // a null pointer
    code = wz_pair_len(&recovery, 0, NULL);
#elif MISTAKE == 9 // what is const
    code = wz_batch_bytes(&batch, (const void *)"a", 1);
#elif MISTAKE == 10 // a reader as a scan
    code = wz_scan_record(&reader, NULL, 0);
#endif
    wz_scan_close(&scan);
    wz_batch_close(&batch);
    wz_recovery_close(&recovery);
    wz_reader_close(&reader);
    return code != WZ_DONE || lens.family != 0;
}
