/* The program `terms` in C over libscullpouch: master.bin and commands in, answers out. */
#define _POSIX_C_SOURCE 200809L
#include <scullpouch.h>
#include <stdio.h>
#include <stdlib.h>
#include <sys/types.h>

static void print_day(uint16_t day) {
    scullpouch_date_reply d = scullpouch_date(day);
    printf("%04d-%02d-%02d", d.year, d.month, d.day);
}

/* The month of a maturity, or its Friday. */
static void print_key(const scullpouch_table *t, uint16_t key) {
    if (t->product.kind == SCULLPOUCH_WEEKLY) print_day(key);
    else printf("%04d-%02d", 2000 + key / 12, key % 12 + 1);
}

static void print_table(char letter, const scullpouch_table *t, uint16_t entered, uint16_t left) {
    printf("%c ", letter);
    print_day(t->date);
    printf(" %d %d %d\n", entered, left, t->given);
    for (size_t i = 0; i < scullpouch_listed(t); i++) {
        scullpouch_maturity m = t->maturities[i];
        printf("%d ", m.number);
        print_key(t, m.key);
        putchar(' ');
        print_day(m.day);
        printf(" %d\n", m.back);
    }
}

/* Whether a text is a date, such as 2008-03-20, and its day. */
static bool parse_date(const char *s, size_t n, uint16_t *day) {
    static const uint16_t weight[10] = {1000, 100, 10, 1, 0, 10, 1, 0, 10, 1};
    uint16_t part[3] = {0, 0, 0};
    if (n != 10) return false;
    for (size_t i = 0, k = 0; i < 10; i++) {
        if (weight[i] == 0) {
            if (s[i] != '-') return false;
            k++;
        } else {
            if (s[i] < '0' || '9' < s[i]) return false;
            part[k] = (uint16_t)(part[k] + weight[i] * (s[i] - '0'));
        }
    }
    scullpouch_day_reply r = scullpouch_day(part[0], part[1], part[2]);
    *day = r.day;
    return r.refusal == 0;
}

/* The length of an id that a space ends; 0 where there is none. */
static size_t id_length(const char *s, size_t n) {
    size_t k = 0;
    while (k < n && k < 5 && ((s[k] >= 'A' && s[k] <= 'Z') || (s[k] >= '0' && s[k] <= '9'))) k++;
    return k >= 1 && k <= 4 && k < n && s[k] == ' ' ? k : 0;
}

static scullpouch_table table;
static bool opened;

static void answer(const uint8_t *file, size_t length, const char *s, size_t n) {
    uint16_t day, entered, left;
    unsigned refusal;
    size_t k = n > 2 && s[0] == 'O' && s[1] == ' ' ? id_length(s + 2, n - 2) : 0;
    if (k != 0 && parse_date(s + 3 + k, n - 3 - k, &day)) {
        char id[5] = {0};
        memcpy(id, s + 2, k);
        refusal = scullpouch_open_into(&table, file, length, id, day, &entered, &left);
        opened = opened || refusal == 0;
    } else if (opened && n > 2 && s[0] == 'R' && s[1] == ' ' && parse_date(s + 2, n - 2, &day)) {
        refusal = scullpouch_roll_into(&table, day, &entered, &left);
    } else if (opened && n > 2 && s[0] == 'C' && s[1] == ' ' && parse_date(s + 2, n - 2, &day)) {
        refusal = scullpouch_close_into(&table, day, &entered, &left);
    } else {
        puts("BAD");
        return;
    }
    if (refusal) printf("NO %u\n", refusal);
    else print_table(s[0], &table, entered, left);
}

int main(void) {
    static uint8_t file[SCULLPOUCH_FILE_AT_MOST + 1];
    size_t length = 0;
    FILE *master = fopen("master.bin", "rb");
    if (master) {
        length = fread(file, 1, sizeof file, master);
        if (ferror(master)) length = 0;
        fclose(master);
    }
    char *line = NULL;
    size_t room = 0;
    ssize_t n;
    while ((n = getline(&line, &room, stdin)) > 0) {
        if (line[n - 1] == '\n') n--;
        answer(file, length, line, (size_t)n);
    }
    free(line);
    return fflush(stdout) != 0;
}
