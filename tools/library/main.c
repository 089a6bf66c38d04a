/* Runs the tests of the library, and says how many calls each made. */
#include "library.h"

char doing[1 << 12];

_Noreturn void fail(const char *file, int line, const char *why) {
    fprintf(stderr, "library: %s (%s:%d), at: %s\n", why, file, line, doing);
    exit(1);
}

int main(void) {
    setvbuf(stdout, NULL, _IOLBF, 0);
    static const struct {
        const char *name;
        void (*run)(void);
    } tests[] = {{"examples", test_examples}, {"handles", test_handles}, {"controller", test_controller}, {"node", test_node},
                 {"joined", test_joined},     {"frames", test_frames},   {"groups", test_groups},         {"records", test_records},
                 {"damaged", test_damaged},   {"full stores", test_full}, {"orchestrator", test_orchestrator},
                 {"orchestrator's records", test_orchestrator_records},
                 {"lost nodes", test_losing}, {"many volumes", test_many}, {"recovery", test_recovering},
                 {"endings", test_endings}};
    for (size_t at = 0; at < sizeof tests / sizeof *tests; at++) {
        unsigned long cases_before = cases, refusals_before = refusals;
        snprintf(doing, sizeof doing, "%s", tests[at].name);
        tests[at].run();
        must(held == 0, "blocks are left at the end");
        printf("the library, %s: %lu calls, %lu of them refused memory\n", tests[at].name, cases - cases_before, refusals - refusals_before);
    }
    return 0;
}
