/* replies.h: a domain's answers and its report, as `iovad replay` prints them. */
#ifndef REPLIES_H
#define REPLIES_H

#include "iova.h"

#include <inttypes.h>
#include <stdio.h>

static inline void told_refusal(FILE *out, uint64_t refusal) {
    fprintf(out, "no %" PRIu64 " %s\n", refusal, iova_refusal_name(refusal));
}

static inline void told_number(FILE *out, const char *name, iova_number answer) {
    if (answer.refused)
        told_refusal(out, answer.refused);
    else
        fprintf(out, "%s %" PRIu64 "\n", name, answer.number);
}

static inline void told_range(FILE *out, const char *name, iova_range answer) {
    if (answer.refused)
        told_refusal(out, answer.refused);
    else if (answer.len == 0)
        fputs("empty\n", out);
    else
        fprintf(out, "%s %" PRIu64 " %" PRIu64 "\n", name, answer.lo, answer.len);
}

static inline void told_row(FILE *out, const char *name, uint64_t value) {
    fprintf(out, "%-10s%20" PRIu64 "\n", name, value);
}

static inline void told_report(FILE *out, iova_domain *domain) {
    iova_counts counts = iova_counts_of(domain);
    iova_flushes flushes = iova_flushes_of(domain);
    iova_listed windows[64];
    told_row(out, "free", counts.free);
    told_row(out, "reserved", counts.reserved);
    told_row(out, "client", counts.client);
    told_row(out, "magazine", counts.magazine);
    told_row(out, "depot", counts.depot);
    told_row(out, "ring", counts.ring);
    told_row(out, "clients", counts.clients);
    told_row(out, "holdings", iova_totals_of(domain).count);
    told_row(out, "start", flushes.start);
    told_row(out, "finish", flushes.finish);
    told_row(out, "owed", flushes.owed);
    told_row(out, "flights", flushes.in_flight);
    uint64_t count = iova_windows_of(domain, windows, 64).number;
    for (uint64_t at = 0; at < count; at++)
        fprintf(out, "%-10s%20" PRIu64 "%20" PRIu64 "\n", "window", windows[at].lo, windows[at].lo + (windows[at].len - 1));
}

#endif
