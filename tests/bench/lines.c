/* A plain C loop for comparison: prints COUNT elapses in UTC, STEP seconds apart, after the instant FIRST. It reads no
   expression and searches nothing. */
#include <stdio.h>
#include <stdlib.h>
#include <time.h>

static void print_span(long long seconds) {
    static const struct { const char *name; long long seconds; } units[] = {
        {"y", 31557600}, {"month", 2629800}, {"w", 604800}, {"d", 86400}, {"h", 3600}, {"min", 60}, {"s", 1},
    };
    const char *space = "";
    for (size_t i = 0; i < sizeof units / sizeof *units; i++) {
        long long n = seconds / units[i].seconds;
        if (n == 0) continue;
        printf("%s%lld%s", space, n, units[i].name);
        seconds %= units[i].seconds;
        space = " ";
    }
}

int main(int count, char **words) {
    if (count != 4) {
        fprintf(stderr, "usage: lines FIRST STEP COUNT\n");
        return 2;
    }
    long long first = atoll(words[1]), step = atoll(words[2]), lines = atoll(words[3]);
    for (long long k = 1; k <= lines; k++) {
        time_t instant = first + k * step;
        struct tm civil;
        char text[64], label[32];
        if (!gmtime_r(&instant, &civil)) return 1;
        strftime(text, sizeof text, "%a %Y-%m-%d %H:%M:%S UTC", &civil);
        if (k == 1) snprintf(label, sizeof label, "Next elapse");
        else snprintf(label, sizeof label, "Iter. #%lld", k);
        printf("%15s: %s\n%15s: ", label, text, "From now");
        print_span(k * step);
        printf(" left\n");
    }
    return fflush(stdout) == 0 ? 0 : 1;
}
