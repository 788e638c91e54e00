/* Replays a trace from standard input through the library, and prints what `iovad replay` prints: a reply a line, and with the word
 * --report the domain's report behind them. A bad line ends it with status 3 and its number on standard error. */
#include "replies.h"

#include <stdbool.h>
#include <string.h>

#define MAX_LINE 128
#define MAX_STEPS 1000000
#define MAX_WORDS 6

struct line {
    int words;
    const char *word[MAX_WORDS];
};

/* Cuts a line, which is without its LF, into words with one space between two. */
static bool cut(char *text, size_t length, struct line *line) {
    line->words = 0;
    if (memchr(text, '\0', length) != NULL)
        return false;
    text[length] = '\0';
    for (char *at = text;;) {
        if (*at == '\0' || *at == ' ' || line->words == MAX_WORDS)
            return false;
        line->word[line->words++] = at;
        at += strcspn(at, " ");
        if (*at == '\0')
            return true;
        *at++ = '\0';
    }
}

/* A number in its one spelling, below 2^64. */
static bool number(const char *word, uint64_t *value) {
    if (word[0] == '0' && word[1] != '\0')
        return false;
    *value = 0;
    for (; *word != '\0'; word++) {
        uint64_t digit = (uint64_t)(*word - '0');
        if (*word < '0' || *word > '9' || *value > (UINT64_MAX - digit) / 10)
            return false;
        *value = *value * 10 + digit;
    }
    return true;
}

/* The numbers behind the first word, `count` of them and no more. */
static bool numbers(const struct line *line, int count, uint64_t *value) {
    if (line->words != count + 1)
        return false;
    for (int at = 0; at < count; at++)
        if (!number(line->word[at + 1], &value[at]))
            return false;
    return true;
}

/* The last word is the first or the second of these two. */
static bool either(const struct line *line, const char *first, const char *second, bool *is_first) {
    if (line->words != 3)
        return false;
    *is_first = strcmp(line->word[2], first) == 0;
    return *is_first || strcmp(line->word[2], second) == 0;
}

static bool header(const struct line *line, iova_domain *domain) {
    uint64_t v[5];
    if (strcmp(line->word[0], "iovatrace") != 0 || line->words < 2 || !number(line->word[1], v))
        return false;
    if (v[0] == 1)
        return numbers(line, 4, v) && iova_domain_make(domain, v[1], v[2], v[3]) == 0;
    return v[0] == 2 && numbers(line, 5, v) && iova_domain_make_second(domain, v[1], v[2], v[3], v[4]) == 0;
}

/* Runs the step of the line and prints its reply, or answers that it is no step's. */
static bool step(const struct line *line, iova_domain *domain) {
    const char *word = line->word[0];
    uint64_t v[4];
    bool first;
    if (strcmp(word, "reserve") == 0) {
        if (!numbers(line, 2, v))
            return false;
        iova_range window = iova_reserve(domain, v[0], v[1]);
        if (window.refused)
            told_refusal(stdout, window.refused);
        else
            printf("reserved %" PRIu64 " %" PRIu64 "\n", window.lo, window.lo + (window.len - 1));
    } else if (strcmp(word, "open") == 0) {
        if (!either(line, "sac", "dac", &first) || !number(line->word[1], v))
            return false;
        told_number(stdout, "opened", iova_open(domain, v[0], first));
    } else if (strcmp(word, "alloc") == 0) {
        if (!numbers(line, 4, v))
            return false;
        told_range(stdout, "given", iova_alloc(domain, v[0], v[1], v[2], v[3]));
    } else if (strcmp(word, "unmap") == 0) {
        if (!numbers(line, 3, v))
            return false;
        told_range(stdout, "queued", iova_unmap(domain, v[0], v[1], v[2]));
    } else if (strcmp(word, "begin") == 0) {
        if (!numbers(line, 0, v))
            return false;
        told_number(stdout, "begun", iova_begin(domain));
    } else if (strcmp(word, "end") == 0) {
        if (!either(line, "ok", "fail", &first) || !number(line->word[1], v))
            return false;
        uint64_t refusal = iova_end(domain, v[0], first);
        if (refusal)
            told_refusal(stdout, refusal);
        else
            puts("ended");
    } else if (strcmp(word, "drain") == 0) {
        if (!numbers(line, 2, v))
            return false;
        told_number(stdout, "drained", iova_drain(domain, v[0], v[1]));
    } else if (strcmp(word, "close") == 0) {
        if (!numbers(line, 2, v))
            return false;
        told_number(stdout, "marked", iova_close(domain, v[0], v[1]));
    } else if (strcmp(word, "closeone") == 0) {
        if (!numbers(line, 2, v))
            return false;
        told_range(stdout, "queued", iova_close_one(domain, v[0], v[1]));
    } else {
        return false;
    }
    return true;
}

int main(int argc, char **argv) {
    iova_domain *domain = iova_domain_new();
    char text[MAX_LINE + 1];
    struct line line;
    uint64_t lines = 0;
    bool is_good = domain != NULL, is_over = false;
    while (is_good && !is_over) {
        size_t length = 0;
        int byte = EOF;
        while (length < MAX_LINE && (byte = getchar()) != EOF && byte != '\n')
            text[length++] = (char)byte;
        is_over = byte == EOF && length == 0 && lines > 0;
        if (is_over)
            break;
        lines++;
        is_good = byte == '\n' && lines <= MAX_STEPS + 1 && cut(text, length, &line) &&
                  (lines == 1 ? header(&line, domain) : step(&line, domain));
    }
    if (is_good && argc > 1 && strcmp(argv[1], "--report") == 0)
        told_report(stdout, domain);
    iova_domain_free(domain);
    if (!is_good) {
        fflush(stdout);
        fprintf(stderr, "iovad: trace refused at line %" PRIu64 "\n", lines);
        return 3;
    }
    return 0;
}
