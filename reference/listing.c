/*
 * The K-line event listing in plain C: a second program, written from the rules alone, that the proved one is
 * compared with byte for byte and whose speed it is measured against.
 *
 *     listing [FILE]
 *
 * reads events, one a line, from FILE or from standard input and writes the listing to standard output.
 * Compiled with -DTALLY it also says on standard error, at the end, how many events it took and how often every
 * report with its reason, every refusal and every situation of an idle time or of an ISO 9141-2 car came.
 *
 * All times are in microseconds. Memory is constant; a line may have any length and any bytes.
 */
#define _POSIX_C_SOURCE 200809L

#include <errno.h>
#include <fcntl.h>
#include <stdbool.h>
#include <stdint.h>
#include <stdio.h>
#include <stdlib.h>
#include <string.h>
#include <unistd.h>
#ifdef TALLY
#include <assert.h>
#endif

#define LAST_TIME   4000000000000u
#define MOST_EVENTS 4000000000u
#define NO_LIMIT    UINT64_MAX

#define MESSAGE_GAP 20000u   /* a longer silence ends a message or damage */
#define LONG_IDLE   300000u  /* silence before an address or a wake-up, unless a stop or P3 max made it shorter */
#define LOW_MIN     24000u   /* a wake-up's low */
#define LOW_MAX     26000u
#define WAKE_MIN    49000u   /* from a wake-up's fall to the tester's first byte */
#define WAKE_MAX    51000u
#define P4_MAX      20000u

#define CAR_ADDRESS 0x33     /* the one that an ISO 9141-2 car answers */
#define CAR_LEAST   5u       /* bytes of a car's message: head of three, one to seven data bytes, checksum */
#define CAR_MOST    11u

enum refusal { TAKEN, UNREADABLE, TIME_TOO_BIG, TIME_BACKWARDS, TOO_MANY };

enum report { FRAME = 1, DAMAGE, CONNECTION, FAILED, OUTSIDE, NO_REPLY, LINK_DOWN, NOT_IDLE };

/* Reasons of DAMAGE */
enum { BROKEN_OFF = 1, CUT, TOO_EARLY, STRAY, MODE_01, FORM, OTHER_SIDE, LENGTH, CHECKSUM };
/* Reasons of FAILED */
enum { INIT_LATE = 1, INIT_CUT, INIT_LOW, INIT_SIDE, INIT_EARLY, INIT_VALUE };
/* Reasons of LINK_DOWN */
enum { STOPPED = 1, RUN_OUT, DROPPED, RESTARTED };

/* ---- Output ---- */

static unsigned char out[65536];
static size_t out_used;

static void fail(const char *what)
{
    fprintf(stderr, "listing: %s: %s\n", what, strerror(errno));
    exit(1);
}

static void flush(void)
{
    size_t done = 0;

    while (done < out_used) {
        ssize_t n = write(STDOUT_FILENO, out + done, out_used - done);

        if (n >= 0)
            done += (size_t)n;
        else if (errno != EINTR)
            fail("standard output");
    }
    out_used = 0;
}

/* Room for one line more: no line has as many as 256 bytes. */
static void begin_line(void)
{
    if (out_used > sizeof out - 256)
        flush();
}

static void put_text(const char *text)
{
    while (*text)
        out[out_used++] = (unsigned char)*text++;
}

static void put_number(uint64_t number)
{
    unsigned char digits[20];
    int n = 0;

    do {
        digits[n++] = (unsigned char)('0' + number % 10);
        number /= 10;
    } while (number > 0);
    while (n > 0)
        out[out_used++] = digits[--n];
}

/* ---- Tally ---- */

#ifdef TALLY
static unsigned long seen_report[9][10];
static unsigned long seen_refusal[5];

/* How an address or a wake-up stands to its idle time. */
enum situation {
    EDGE_NONE = 1, EDGE_NORMAL, EDGE_EXTENDED, EDGE_CHANGED, EDGE_LONG, /* on it or one before: 0, P3 min, 300 ms */
    KEPT,                                                 /* by a P3 min that a report 8 kept */
    BYTE_NONE, BYTE_P3_MIN,                               /* by 0 or a P3 min, after an outside byte */
    OUT_IN_ADDRESS, OUT_IN_WAKE_UP,                       /* by 0, as P3 max ran out in the start itself */
    RESTART,
    OUT_IN_DROP, OUT_DROPPED, STOP_DROPPED, START_FAILED, /* by 300 ms, in place of a shorter time */
    SITUATIONS = START_FAILED + 6                         /* START_FAILED is one for each reason */
};

static unsigned long seen_idle[SITUATIONS][2]; /* answered with report 8, and started */

/* What came up with cars. A name that stands for several is the first of them; behind it, what they go by. */
enum car_situation {
    /* Starts */
    UP_WITH = 1,                      /* 08 08, 94 94 */
    CAR_AFTER_CAR = UP_WITH + 2,      /* 08 08 behind 94 94, 94 94 behind 08 08 */
    CAR_AFTER_14230 = CAR_AFTER_CAR + 2,
    ISO_14230_AFTER_CAR,
    OTHER_ADDRESS,                    /* 08 08, 94 94 */
    MIXED_KEYS = OTHER_ADDRESS + 2,   /* 08 94, 94 08 */
    FAST_KEYS = MIXED_KEYS + 2,       /* 08 08, 94 94 */
    BACK_WRONG = FAST_KEYS + 2,       /* the complement of the key byte, CC */
    BACK_EARLY = BACK_WRONG + 2,      /* the same */
    SOON_AFTER_CAR = BACK_EARLY + 2,
    /* Messages that have ended */
    REQUEST_OF,                       /* 5 to 11 bytes */
    REPLY_OF = REQUEST_OF + 7,        /* the same */
    HEAD_OF_REQUEST = REPLY_OF + 7,   /* first, second, third byte */
    HEAD_OF_REPLY = HEAD_OF_REQUEST + 3, /* first, second byte */
    HEAD_AND_SIZE = HEAD_OF_REPLY + 2, /* too few, too many bytes */
    HEAD_AND_SUM = HEAD_AND_SIZE + 2,
    TOO_FEW,                          /* 1 to 4 bytes */
    TWELVE = TOO_FEW + 4,
    MORE_THAN_TWELVE,
    EIGHT_BITS_MORE,                  /* so that the size seems right in eight bits */
    SIZE_AND_SUM,                     /* too few, too many bytes */
    SIZE_ALONE = SIZE_AND_SUM + 2,    /* the same */
    WRONG_SUM = SIZE_ALONE + 2,       /* request, reply */
    TWO_REPLIES = WRONG_SUM + 2,      /* right, reason 8, reason 9 */
    TWO_UNDER = TWO_REPLIES + 3,      /* 08 08, 94 94 */
    /* Limits: at the last moment before a rule begins or ceases to act, and one microsecond later */
    GAP_TICK = TWO_UNDER + 2,
    GAP_BYTE = GAP_TICK + 2,
    GAP_REPLY = GAP_BYTE + 2,
    GAP_CLOSED = GAP_REPLY + 2,
    GAP_DAMAGE = GAP_CLOSED + 2,
    FIRST_AT_MIN = GAP_DAMAGE + 2,
    FIRST_AT_MAX = FIRST_AT_MIN + 2,  /* for 08 08, for 94 94 */
    FURTHER_AT_MIN = FIRST_AT_MAX + 4,
    FURTHER_AT_MAX = FURTHER_AT_MIN + 2, /* for 08 08, for 94 94 */
    P2_TICK = FURTHER_AT_MAX + 4,
    P3_MIN = P2_TICK + 2,             /* for 08 08, for 94 94 */
    P3_TICK = P3_MIN + 4,
    /* Bytes */
    REPLY_AT_ONCE = P3_TICK + 2,
    EARLY_FIRST,
    STRAY_FIRST,
    OTHER_BYTE,                       /* 08 08 in a request, in a reply; 94 94 in a reply */
    OTHER_AFTER = OTHER_BYTE + 3,     /* a whole request, a wrong head, too many bytes */
    ENDS_RIGHT = OTHER_AFTER + 3,
    ENDS_WRONG,                       /* reason 6, 8, 9 */
    GOES_ON = ENDS_WRONG + 3,
    /* What an address, a wake-up or a drop closes */
    CLOSED_RIGHT,                     /* address, wake-up, drop */
    CLOSED_WRONG = CLOSED_RIGHT + 3,
    CLOSED_DAMAGE,
    /* Reports together */
    TOGETHER,                         /* as in the table of tally_together */
    OUT_BEHIND = TOGETHER + 12,       /* reason 6, 8, 9 */
    OUT_BEHIND_DAMAGE = OUT_BEHIND + 3,
    /* Data that would do something on a 14230 link */
    NO_STOP,
    NO_SET,
    NO_CODES,
    SAME_WINDOWS,
    HELD_AT_END,
    CAR_SITUATIONS
};

static unsigned long seen_car[CAR_SITUATIONS];

static void print_tally(uint64_t events)
{
    fprintf(stderr, "taken %llu\n", (unsigned long long)events);
    for (int number = 1; number < 9; number++)
        for (int reason = 0; reason < 10; reason++)
            if (seen_report[number][reason])
                fprintf(stderr, "report %d %d %lu\n", number, reason, seen_report[number][reason]);
    for (int number = 1; number < 5; number++)
        if (seen_refusal[number])
            fprintf(stderr, "refused %d %lu\n", number, seen_refusal[number]);
    for (int situation = 1; situation < SITUATIONS; situation++)
        for (int started = 0; started < 2; started++)
            if (seen_idle[situation][started])
                fprintf(stderr, "idle %d %d %lu\n", situation, started, seen_idle[situation][started]);
    for (int situation = 1; situation < CAR_SITUATIONS; situation++)
        if (seen_car[situation])
            fprintf(stderr, "car %d %lu\n", situation, seen_car[situation]);
}
#endif

/* ---- Key bytes and timing ---- */

/* What the key bytes choose: ISO 14230, or ISO 9141-2 with 08 08 or 94 94. */
enum edition { ISO_14230, CAR_08, CAR_94 };

struct timing {
    uint64_t p2_min, p2_max, p3_min, p3_max;
};

static const struct timing NORMAL = { 25000, 50000, 55000, 5000000 };
static const struct timing EXTENDED = { 0, 1000000, 5500, 5000000 };
static const struct timing AT_ONCE = { 0, 50000, 55000, 5000000 }; /* of 94 94: normal, but a reply may come at once */

static bool bit(uint8_t byte, int n)
{
    return byte >> n & 1;
}

static bool keys_good(uint8_t kb1, uint8_t kb2)
{
    int ones = 0;

    for (int n = 0; n < 8; n++)
        ones += bit(kb1, n);
    return kb2 == 0x8F && ones % 2 == 1 && bit(kb1, 6) && bit(kb1, 4) != bit(kb1, 5) &&
           (bit(kb1, 0) || bit(kb1, 1)) && (bit(kb1, 2) || bit(kb1, 3));
}

static bool car_keys_good(uint8_t kb1, uint8_t kb2)
{
    return kb1 == kb2 && (kb1 == 0x08 || kb1 == 0x94);
}

/* Of a good pair: no KB1 of ISO 14230 is 08 or 94, as bit 6 is clear in both. */
static enum edition edition_of_keys(uint8_t kb1)
{
    return kb1 == 0x08 ? CAR_08 : kb1 == 0x94 ? CAR_94 : ISO_14230;
}

static struct timing timing_of_keys(uint8_t kb1)
{
    switch (edition_of_keys(kb1)) {
    case CAR_08:
        return NORMAL;
    case CAR_94:
        return AT_ONCE;
    case ISO_14230:
        break;
    }
    return bit(kb1, 4) ? EXTENDED : NORMAL;
}

static uint64_t p2_max_of_code(uint8_t code)
{
    if (code <= 0xF0)
        return code * UINT64_C(25000);
    if (code < 0xFF)
        return (code & 0x0F) * UINT64_C(6400000);
    return NO_LIMIT;
}

/* The windows that five codes give; false, with nothing changed, where they are not allowed. */
static bool timing_of_codes(const uint8_t code[5], struct timing *timing)
{
    struct timing t;
    uint64_t p4_min = code[4] * UINT64_C(500);

    t.p2_min = code[0] * UINT64_C(500);
    t.p2_max = p2_max_of_code(code[1]);
    t.p3_min = code[2] * UINT64_C(500);
    t.p3_max = code[3] == 0xFF ? NO_LIMIT : code[3] * UINT64_C(250000);
    if (code[1] == 0 || t.p2_min >= t.p2_max || t.p3_min >= t.p3_max || p4_min >= P4_MAX || t.p3_min <= p4_min)
        return false;
    *timing = t;
    return true;
}

/* ---- The link ---- */

struct event {
    char kind;  /* A, W, B, T or D */
    char side;  /* t or e, of a B */
    uint8_t value;
    uint64_t start, end;
};

enum phase { DOWN, STARTING, CONNECTED };

/* The byte an initialization waits for. */
enum stage {
    SYNC, FIRST_KEY, SECOND_KEY, KEY_BACK, ADDRESS_BACK,
    ASK_FORMAT, ASK_TARGET, ASK_SOURCE, ASK_SERVICE, ASK_SUM,
    REPLY_FORMAT, REPLY_TARGET, REPLY_SOURCE, REPLY_LENGTH, REPLY_SERVICE, REPLY_KEY_1, REPLY_KEY_2, REPLY_SUM
};

/* Who sends that byte, and when it may start after the byte (or address) before it. */
static const struct {
    char side;
    uint32_t min, max;
} STAGES[] = {
    [SYNC] = { 'e', 60000, 300000 },
    [FIRST_KEY] = { 'e', 5000, 20000 },
    [SECOND_KEY] = { 'e', 0, 20000 },
    [KEY_BACK] = { 't', 25000, 50000 },
    [ADDRESS_BACK] = { 'e', 25000, 50000 },
    [ASK_FORMAT] = { 't', WAKE_MIN, WAKE_MAX },
    [ASK_TARGET] = { 't', 0, 20000 },
    [ASK_SOURCE] = { 't', 0, 20000 },
    [ASK_SERVICE] = { 't', 0, 20000 },
    [ASK_SUM] = { 't', 0, 20000 },
    [REPLY_FORMAT] = { 'e', 25000, 50000 },
    [REPLY_TARGET] = { 'e', 0, 20000 },
    [REPLY_SOURCE] = { 'e', 0, 20000 },
    [REPLY_LENGTH] = { 'e', 0, 20000 },
    [REPLY_SERVICE] = { 'e', 0, 20000 },
    [REPLY_KEY_1] = { 'e', 0, 20000 },
    [REPLY_KEY_2] = { 'e', 0, 20000 },
    [REPLY_SUM] = { 'e', 0, 20000 },
};

struct start {
    enum stage stage;
    uint64_t earliest, latest;  /* start of the next byte */
    uint8_t address;
    uint8_t format;             /* of the fast reply */
    uint8_t sum;                /* of the fast request's or reply's bytes so far */
};

enum reply { NO_REPLY_DUE, FIRST_DUE, FURTHER_DUE };

/*
 * Where in a message the next byte stands; behind a byte that is wrong, all are skipped. A car's message has no length,
 * so that any byte may be its last: behind the first, all stand in one place.
 */
enum place { AT_FIRST, AT_TARGET, AT_SOURCE, AT_LENGTH, AT_DATA, AT_SUM, IN_CAR_MESSAGE, SKIPPING };

/* A frame's data as far as the link looks at it: 83 03 and five codes are the longest. */
struct data {
    unsigned length;
    uint8_t byte[7];
};

struct message {
    char side;
    uint8_t sum;      /* of the bytes so far; of a car's, of those before the last */
    unsigned length;  /* data bytes announced; 0 before an extra length byte */
    struct data data; /* data bytes so far */
    uint8_t last;     /* of a car's, the last byte so far, which may be the checksum, */
    unsigned size;    /* how many there are, no further than one too many, */
    bool wrong_head;  /* and whether one of the head is wrong */
};

struct counts {
    uint64_t heard, in_frames, in_damage, in_starts, outside, frames, damages;
};

struct link {
    enum phase phase;
    uint64_t clock;  /* end of the last event taken, or of the one being taken */
    uint64_t mark;   /* end of the last A, W or B taken */
    uint64_t idle;   /* silence from the mark that an A or W needs while the link is down */
    uint64_t events; /* taken so far */
    uint64_t named;  /* bytes that reports have named */
    struct counts counts;
    uint8_t kb1, kb2;
    struct start start;
    enum edition edition;
    struct timing timing;
    enum reply reply;
    enum place place;
    int reason;      /* of the damage being skipped */
    struct message message;
    struct data request; /* latest tester frame; length 0 if there is none, or it has had its effect */
};

static uint64_t held(const struct link *link)
{
    return link->counts.heard - link->named;
}

static void count_report(struct counts *counts, enum report number, uint64_t bytes)
{
    switch (number) {
    case FRAME:
        counts->in_frames += bytes;
        counts->frames++;
        break;
    case DAMAGE:
        counts->in_damage += bytes;
        counts->damages++;
        break;
    case CONNECTION:
    case FAILED:
        counts->in_starts += bytes;
        break;
    case OUTSIDE:
        counts->outside += bytes;
        break;
    case NO_REPLY:
    case LINK_DOWN:
    case NOT_IDLE:
        break;
    }
}

#ifdef TALLY
/* Of the event being taken: the link before it, and what it has reported, as ten times the number and the reason. */
static struct link before;
static int said[4], said_count;
#endif

static void report(struct link *link, enum report number, int reason, uint64_t bytes)
{
    begin_line();
    put_number(number);
    put_text(" ");
    put_number((uint64_t)reason);
    put_text(" ");
    put_number(link->named);
    put_text(" ");
    put_number(bytes);
    put_text(" ");
    put_number(link->clock);
    put_text("\n");
    link->named += bytes;
    count_report(&link->counts, number, bytes);
#ifdef TALLY
    seen_report[number][reason]++;
    assert(said_count < 4); /* never five for one event */
    said[said_count++] = 10 * (int)number + reason;
#endif
}

#ifdef TALLY
/* The report of a failed start or a link that went down, or the drop, that the idle time goes by, and what came since. */
static struct {
    enum report number;
    uint64_t event;         /* how many events were taken up to it */
    uint64_t before;        /* the idle time before it */
    enum situation instead; /* if that was shorter */
    bool byte, refused;     /* since then, an outside byte, and the last start answered with report 8 */
} latest;

static void tally_latest(const struct link *link, enum report number, int reason)
{
    enum situation instead = 0;

    if (number == FAILED)
        instead = START_FAILED + reason - 1;
    else if (reason == DROPPED && link->idle > 0)
        instead = STOP_DROPPED;
    else if (reason == DROPPED)
        instead = latest.event == link->events ? OUT_IN_DROP : OUT_DROPPED;
    latest.number = number;
    latest.event = link->events;
    latest.before = link->idle;
    latest.instead = link->idle < LONG_IDLE ? instead : 0;
    latest.byte = latest.refused = false;
}

static enum situation edge(const struct link *link)
{
    if (link->idle == 0)
        return EDGE_NONE;
    if (link->idle == LONG_IDLE)
        return EDGE_LONG;
    if (link->idle != timing_of_keys(link->kb1).p3_min)
        return EDGE_CHANGED;
    return bit(link->kb1, 4) ? EDGE_EXTENDED : EDGE_NORMAL;
}

/*
 * A start is judged. Where a shorter time lets it start, it counts if 300 ms would not have; where 300 ms that came in
 * place of a shorter time refuse it, if that would have let it start.
 */
static void tally_start(const struct link *link, const struct event *event)
{
    uint64_t gap = event->start - link->mark;
    bool started = gap >= link->idle;
    bool now = latest.event == link->events;

    if (gap == link->idle || gap + 1 == link->idle)
        seen_idle[edge(link)][started]++;
    if (link->idle == LONG_IDLE) {
        if (latest.instead && gap >= latest.before)
            seen_idle[latest.instead][started]++;
        if (now && latest.number == LINK_DOWN)
            seen_idle[RESTART][started]++;
    } else if (gap < LONG_IDLE) {
        if (latest.refused)
            seen_idle[KEPT][started]++;
        if (latest.byte)
            seen_idle[link->idle == 0 ? BYTE_NONE : BYTE_P3_MIN][started]++;
        if (now)
            seen_idle[event->kind == 'A' ? OUT_IN_ADDRESS : OUT_IN_WAKE_UP][started]++;
    }
    latest.refused = !started;
}
#endif

/* The idle time goes by the latest report of a start that failed or a link that went down, or the latest drop. */
static void set_idle(struct link *link, enum report number, int reason)
{
#ifdef TALLY
    tally_latest(link, number, reason);
#endif
    if (number == LINK_DOWN && reason == STOPPED)
        link->idle = link->timing.p3_min;
    else if (number == LINK_DOWN && reason == RUN_OUT)
        link->idle = 0;
    else
        link->idle = LONG_IDLE;
}

static void go_down(struct link *link, enum report number, int reason)
{
    report(link, number, reason, held(link));
    set_idle(link, number, reason);
    link->phase = DOWN;
}

/* The held message or the damage is over. */
static void close_held(struct link *link, int message_reason)
{
    report(link, DAMAGE, link->place == SKIPPING ? link->reason : message_reason, held(link));
    link->place = AT_FIRST;
    link->reply = NO_REPLY_DUE;
}

/* The held message is over, and right. A tester's awaits a first reply; a unit's allows further ones. */
static void end_message(struct link *link)
{
    report(link, FRAME, 0, held(link));
    link->place = AT_FIRST;
    link->reply = link->message.side == 't' ? FIRST_DUE : FURTHER_DUE;
}

/* What is wrong with a car's message that has ended, 0 if nothing is: head before size before sum. */
static int car_fault(const struct message *message)
{
    if (message->wrong_head)
        return FORM;
    if (message->size < CAR_LEAST || message->size > CAR_MOST)
        return LENGTH;
    if (message->last != message->sum)
        return CHECKSUM;
    return 0;
}

/* A car's message has ended: only now is it judged. */
static void judge_car_message(struct link *link)
{
    int fault = car_fault(&link->message);

    if (fault)
        close_held(link, fault);
    else
        end_message(link);
}

static void pass_time(struct link *link, uint64_t time)
{
    uint64_t gap = time - link->mark;

    if (link->phase == STARTING) {
        if (time > link->start.latest)
            go_down(link, FAILED, INIT_LATE);
    } else if (link->phase == CONNECTED && gap > MESSAGE_GAP) { /* every P2 max and P3 max is longer */
        if (link->place == IN_CAR_MESSAGE)
            judge_car_message(link);
        else if (link->place != AT_FIRST)
            close_held(link, BROKEN_OFF);
        if (link->reply == FIRST_DUE && gap > link->timing.p2_max) {
            report(link, NO_REPLY, 0, 0);
            link->reply = NO_REPLY_DUE;
        }
        if (link->reply != FIRST_DUE && gap > link->timing.p3_max)
            go_down(link, LINK_DOWN, RUN_OUT);
    }
}

/* An address, a wake-up or a drop closes what is open. */
static void close_all(struct link *link, int down_reason)
{
    if (link->phase == STARTING) {
        go_down(link, FAILED, INIT_CUT);
    } else if (link->phase == CONNECTED) {
        if (link->place != AT_FIRST)
            close_held(link, CUT);
        go_down(link, LINK_DOWN, down_reason);
    }
}

/* ---- Initialization ---- */

static void wait_for(struct link *link, enum stage stage, uint64_t from)
{
    link->phase = STARTING;
    link->start.stage = stage;
    link->start.earliest = from + STAGES[stage].min;
    link->start.latest = from + STAGES[stage].max;
}

static bool line_was_idle(struct link *link, const struct event *event)
{
#ifdef TALLY
    tally_start(link, event);
#endif
    if (event->start - link->mark >= link->idle)
        return true;
    report(link, NOT_IDLE, 0, 0);
    return false;
}

static void take_address(struct link *link, const struct event *event)
{
    close_all(link, RESTARTED);
    if (!line_was_idle(link, event))
        return;
    link->start.address = event->value;
    wait_for(link, SYNC, event->end);
}

static void take_wake_up(struct link *link, const struct event *event)
{
    uint64_t low = event->end - event->start;

    close_all(link, RESTARTED);
    if (!line_was_idle(link, event))
        return;
    if (low < LOW_MIN || low > LOW_MAX) {
        go_down(link, FAILED, INIT_LOW);
        return;
    }
    link->start.sum = 0;
    wait_for(link, ASK_FORMAT, event->start);
}

/* Whether a byte is what its stage asks for. Key bytes are kept, and judged as a pair. */
static bool value_fits(struct link *link, uint8_t value)
{
    switch (link->start.stage) {
    case SYNC:
        return value == 0x55;
    case FIRST_KEY:
    case REPLY_KEY_1:
        link->kb1 = value;
        return true;
    case SECOND_KEY:
        link->kb2 = value;
        return keys_good(link->kb1, link->kb2) ||
               (link->start.address == CAR_ADDRESS && car_keys_good(link->kb1, link->kb2));
    case KEY_BACK:
        return value == 255 - link->kb2;
    case ADDRESS_BACK:
        return value == 255 - link->start.address;
    case ASK_FORMAT:
        return value == 0x81 || value == 0xC1;
    case ASK_SERVICE:
        return value == 0x81;
    case ASK_SUM:
        return value == link->start.sum;
    case REPLY_FORMAT:
        link->start.format = value;
        return value == 0x03 || value == 0x00 || value == 0x83 || value == 0x80;
    case REPLY_LENGTH:
        return value == 3;
    case REPLY_SERVICE:
        return value == 0xC1;
    case REPLY_KEY_2:
        link->kb2 = value;
        return true;
    case REPLY_SUM:
        return value == link->start.sum && keys_good(link->kb1, link->kb2);
    case ASK_TARGET:
    case ASK_SOURCE:
    case REPLY_TARGET:
    case REPLY_SOURCE:
        return true;
    }
    return false;
}

static enum stage next_stage(const struct start *start)
{
    bool addresses = start->format & 0x80;
    bool extra_length = (start->format & 0x3F) == 0;

    if (start->stage == REPLY_FORMAT && addresses)
        return REPLY_TARGET;
    if (start->stage == REPLY_FORMAT || start->stage == REPLY_SOURCE)
        return extra_length ? REPLY_LENGTH : REPLY_SERVICE;
    return start->stage + 1;
}

static void connect(struct link *link)
{
    report(link, CONNECTION, 0, held(link));
    link->phase = CONNECTED;
    link->edition = edition_of_keys(link->kb1);
    link->timing = timing_of_keys(link->kb1);
    link->reply = NO_REPLY_DUE;
    link->place = AT_FIRST;
    link->request.length = 0;
}

static void starting_byte(struct link *link, const struct event *event)
{
    struct start *start = &link->start;

    if (event->side != STAGES[start->stage].side) {
        go_down(link, FAILED, INIT_SIDE);
    } else if (event->start < start->earliest) {
        go_down(link, FAILED, INIT_EARLY);
    } else if (!value_fits(link, event->value)) {
        go_down(link, FAILED, INIT_VALUE);
    } else if (start->stage == ADDRESS_BACK || start->stage == REPLY_SUM) {
        connect(link);
    } else {
        start->sum = start->stage == ASK_SUM ? 0 : start->sum + event->value;
        wait_for(link, next_stage(start), event->end);
    }
}

/* ---- The connected link ---- */

/* What is wrong with the time of a message's first byte, 0 if nothing is. */
static int time_fault(const struct link *link, const struct event *event)
{
    uint64_t gap = event->start - link->mark;

    if (event->side == 't')
        return link->reply == FIRST_DUE || gap < link->timing.p3_min ? TOO_EARLY : 0;
    if (link->reply == NO_REPLY_DUE || gap > link->timing.p2_max)
        return STRAY;
    return gap < link->timing.p2_min ? TOO_EARLY : 0;
}

/* What is wrong with a format byte, 0 if nothing is. */
static int format_fault(uint8_t kb1, uint8_t format)
{
    int mode = format >> 6;
    int length = format & 0x3F;

    if (mode == 1)
        return MODE_01;
    if (!bit(kb1, mode == 0 ? 2 : 3) || (mode == 3 && bit(kb1, 4)))
        return FORM;
    if (!bit(kb1, length == 0 ? 1 : 0))
        return LENGTH;
    return 0;
}

static bool is_exactly(const struct data *data, unsigned length, uint8_t first, uint8_t second)
{
    return data->length == length && data->byte[0] == first && data->byte[1] == second;
}

/* What a unit frame does as the answer to the latest tester frame. */
static void answer(struct link *link, const struct data *data)
{
    struct data *request = &link->request;

    if (request->length == 0)
        return;
    if (request->byte[0] == 0x82 && data->byte[0] == 0xC2) {
        go_down(link, LINK_DOWN, STOPPED);
    } else if (is_exactly(request, 2, 0x83, 0x01) && is_exactly(data, 2, 0xC3, 0x01)) {
        link->timing = timing_of_keys(link->kb1);
        request->length = 0;
    } else if (is_exactly(request, 7, 0x83, 0x03) && is_exactly(data, 2, 0xC3, 0x03)) {
        timing_of_codes(request->byte + 2, &link->timing);
        request->length = 0;
    }
}

static void end_frame(struct link *link)
{
    struct message *message = &link->message;

    end_message(link);
    if (message->side == 't')
        link->request = message->data;
    else
        answer(link, &message->data);
}

static void skip(struct link *link, int reason)
{
    link->place = SKIPPING;
    link->reason = reason;
}

static void format_byte(struct link *link, const struct event *event)
{
    struct message *message = &link->message;
    int fault = format_fault(link->kb1, event->value);

    if (fault) {
        skip(link, fault);
        return;
    }
    message->side = event->side;
    message->sum = event->value;
    message->length = event->value & 0x3F;
    message->data.length = 0;
    link->place = event->value & 0x80 ? AT_TARGET : message->length == 0 ? AT_LENGTH : AT_DATA;
}

static void data_byte(struct link *link, uint8_t value)
{
    struct data *data = &link->message.data;

    if (data->length < sizeof data->byte)
        data->byte[data->length] = value;
    data->length++;
    if (data->length == link->message.length)
        link->place = AT_SUM;
}

static void later_byte(struct link *link, const struct event *event)
{
    struct message *message = &link->message;
    uint8_t sum = message->sum; /* of the bytes before this one */

    message->sum += event->value;
    if (event->side != message->side) {
        skip(link, OTHER_SIDE);
    } else if (link->place == AT_DATA) {
        data_byte(link, event->value);
    } else if (link->place == AT_TARGET) {
        link->place = AT_SOURCE;
    } else if (link->place == AT_SOURCE) {
        link->place = message->length == 0 ? AT_LENGTH : AT_DATA;
    } else if (link->place == AT_LENGTH) {
        message->length = event->value;
        link->place = AT_DATA;
        if (event->value == 0)
            skip(link, LENGTH);
    } else if (event->value == sum) {
        end_frame(link);
    } else {
        skip(link, CHECKSUM);
    }
}

/* Whether a byte fits a car's head. The third byte of a reply is the unit's address, which may be any. */
static bool head_fits(char side, unsigned place, uint8_t value)
{
    static const uint8_t REQUEST[] = { 0x68, 0x6A, 0xF1 };
    static const uint8_t REPLY[] = { 0x48, 0x6B };

    if (side == 't')
        return place >= sizeof REQUEST || value == REQUEST[place];
    return place >= sizeof REPLY || value == REPLY[place];
}

/* Whatever a byte is, it joins a car's message of its side. */
static void join_car_message(struct message *message, uint8_t value)
{
    if (!head_fits(message->side, message->size, value))
        message->wrong_head = true;
    message->sum += message->last;
    message->last = value;
    if (message->size <= CAR_MOST)
        message->size++;
}

static void first_car_byte(struct link *link, const struct event *event)
{
    link->place = IN_CAR_MESSAGE;
    link->message = (struct message){ .side = event->side };
    join_car_message(&link->message, event->value);
}

static void later_car_byte(struct link *link, const struct event *event)
{
    if (event->side != link->message.side)
        skip(link, OTHER_SIDE);
    else
        join_car_message(&link->message, event->value);
}

/* Under 94 94 a unit byte ends a held tester message, as the gap would. */
static bool ends_request(const struct link *link, const struct event *event)
{
    return link->phase == CONNECTED && link->place == IN_CAR_MESSAGE && link->edition == CAR_94 &&
           link->message.side == 't' && event->side == 'e';
}

static void first_byte(struct link *link, const struct event *event)
{
    int fault = time_fault(link, event);

    if (fault)
        skip(link, fault);
    else if (link->edition == ISO_14230)
        format_byte(link, event);
    else
        first_car_byte(link, event);
}

static void connected_byte(struct link *link, const struct event *event)
{
    if (link->place == AT_FIRST)
        first_byte(link, event);
    else if (link->place == IN_CAR_MESSAGE)
        later_car_byte(link, event);
    else if (link->place != SKIPPING)
        later_byte(link, event);
}

/* ---- Events ---- */

static void take_byte(struct link *link, const struct event *event)
{
    if (ends_request(link, event))
        judge_car_message(link);
    link->counts.heard++;
    switch (link->phase) {
    case DOWN:
        report(link, OUTSIDE, 0, 1);
#ifdef TALLY
        latest.byte = true;
#endif
        break;
    case STARTING:
        starting_byte(link, event);
        break;
    case CONNECTED:
        connected_byte(link, event);
        break;
    }
}

static void take_drop(struct link *link)
{
    close_all(link, DROPPED);
    set_idle(link, LINK_DOWN, DROPPED); /* also where the link was down already, without a report */
}

/* ---- Tally of cars ---- */

#ifdef TALLY
/* The message or damage that is open on a car's link. */
static struct {
    char side;        /* of its first byte */
    uint64_t size;
    uint8_t byte[22]; /* its first ones, enough for two messages */
} span;

static struct data asked;       /* data of the latest request */
static struct timing otherwise; /* the windows that data of requests and replies would have set on a 14230 link */

static void tally_before(const struct link *link)
{
    before = *link;
    memset(said, 0, sizeof said);
    said_count = 0;
}

/* A situation where a gap is as long as a limit, and the next one where it is one microsecond longer. */
static void tally_limit(uint64_t gap, uint64_t limit, enum car_situation situation)
{
    if (gap == limit || gap == limit + 1)
        seen_car[situation + (gap - limit)]++;
}

/* The place of the first report's reason among 6, 8 and 9. */
static int fault_said(void)
{
    return said[0] == 26 ? 0 : said[0] == 28 ? 1 : 2;
}

static void tally_connection(const struct link *link)
{
    asked.length = 0;
    otherwise = link->timing;
    if (link->edition != ISO_14230)
        seen_car[UP_WITH + link->edition - CAR_08]++;
    if (seen_report[CONNECTION][0] == 1 || link->edition == before.edition)
        return; /* there is none before it, or it is of the same kind */
    if (link->edition == ISO_14230)
        seen_car[ISO_14230_AFTER_CAR]++;
    else if (before.edition == ISO_14230)
        seen_car[CAR_AFTER_14230]++;
    else
        seen_car[CAR_AFTER_CAR + link->edition - CAR_08]++;
}

/* A byte of an initialization has failed by its value. */
static void tally_wrong_value(const struct event *event)
{
    const struct start *start = &before.start;
    uint8_t other = before.kb1 == 0x08 ? 0x94 : 0x08;
    int which = before.kb1 == 0x94;

    if (start->stage == SECOND_KEY && start->address != CAR_ADDRESS && car_keys_good(before.kb1, event->value))
        seen_car[OTHER_ADDRESS + which]++;
    if (start->stage == SECOND_KEY && start->address == CAR_ADDRESS && car_keys_good(before.kb1, before.kb1) &&
        event->value == other)
        seen_car[MIXED_KEYS + which]++;
    if (start->stage == REPLY_SUM && event->value == start->sum && car_keys_good(before.kb1, before.kb2))
        seen_car[FAST_KEYS + which]++;
}

static void tally_start_byte(const struct link *link, const struct event *event)
{
    enum stage stage = before.start.stage;
    bool back = (stage == KEY_BACK || stage == ADDRESS_BACK) && car_keys_good(before.kb1, before.kb2);

    if (said[0] == 30)
        tally_connection(link);
    else if (back && said[0] == 45)
        seen_car[BACK_EARLY + (stage == ADDRESS_BACK)]++;
    else if (back && said[0] == 46)
        seen_car[BACK_WRONG + (stage == ADDRESS_BACK)]++;
    else if (said[0] == 46)
        tally_wrong_value(event);
}

/* A right message: what its data would do on a 14230 link. */
static void tally_data(void)
{
    struct data data = { .length = (unsigned)span.size - 4 };

    memcpy(data.byte, span.byte + 3, data.length);
    if (span.side == 't') {
        asked = data;
    } else if (asked.length > 0 && asked.byte[0] == 0x82 && data.byte[0] == 0xC2) {
        seen_car[NO_STOP]++;
    } else if (is_exactly(&asked, 2, 0x83, 0x01) && is_exactly(&data, 2, 0xC3, 0x01)) {
        seen_car[NO_SET]++;
        otherwise = bit(before.kb1, 4) ? EXTENDED : NORMAL;
    } else if (is_exactly(&asked, 7, 0x83, 0x03) && is_exactly(&data, 2, 0xC3, 0x03)) {
        if (timing_of_codes(asked.byte + 2, &otherwise))
            seen_car[NO_CODES]++;
    }
}

static bool is_reply(const uint8_t *byte, uint64_t size)
{
    struct message message = { .side = 'e' };

    for (uint64_t i = 0; i < size; i++)
        join_car_message(&message, byte[i]);
    return car_fault(&message) == 0;
}

/* Whether a unit's message is two right ones end to end. */
static bool is_two_replies(void)
{
    if (span.side != 'e' || span.size > sizeof span.byte)
        return false;
    for (uint64_t first = CAR_LEAST; first < span.size; first++)
        if (is_reply(span.byte, first) && is_reply(span.byte + first, span.size - first))
            return true;
    return false;
}

/* Of a message whose head is wrong, the one wrong byte's place; none if there are several. */
static int wrong_place(void)
{
    int place = -1;

    for (unsigned i = 0; i < 3 && i < span.size; i++)
        if (!head_fits(span.side, i, span.byte[i]))
            place = place < 0 ? (int)i : 3;
    return place;
}

static void tally_wrong_size(bool sum_right)
{
    if (span.size < CAR_LEAST)
        seen_car[TOO_FEW + span.size - 1]++;
    else if (span.size == 12)
        seen_car[TWELVE]++;
    else if (sum_right && span.size >= 256 + CAR_LEAST && span.size <= 256 + CAR_MOST)
        seen_car[EIGHT_BITS_MORE]++;
    else
        seen_car[MORE_THAN_TWELVE]++;
    seen_car[(sum_right ? SIZE_ALONE : SIZE_AND_SUM) + (span.size > CAR_MOST)]++;
}

/* A message has been judged. */
static void tally_judged(void)
{
    bool tester = span.side == 't';
    bool size_right = span.size >= CAR_LEAST && span.size <= CAR_MOST;
    bool sum_right = before.message.last == before.message.sum;

    if (said[0] == 10) {
        seen_car[(tester ? REQUEST_OF : REPLY_OF) + span.size - CAR_LEAST]++;
        tally_data();
    } else if (said[0] == 26 && !size_right) {
        seen_car[HEAD_AND_SIZE + (span.size > CAR_MOST)]++;
    } else if (said[0] == 26 && !sum_right) {
        seen_car[HEAD_AND_SUM]++;
    } else if (said[0] == 26 && wrong_place() < 3) {
        seen_car[(tester ? HEAD_OF_REQUEST : HEAD_OF_REPLY) + wrong_place()]++;
    } else if (said[0] == 28) {
        tally_wrong_size(sum_right);
    } else if (said[0] == 29) {
        seen_car[WRONG_SUM + !tester]++;
    }
    if (is_two_replies()) {
        seen_car[TWO_REPLIES + (said[0] == 10 ? 0 : fault_said())]++;
        seen_car[TWO_UNDER + before.edition - CAR_08]++;
    }
}

/* Damage has ended: whether more than the time of its first byte was wrong. */
static void tally_damage(void)
{
    if (wrong_place() >= 0 || span.size < CAR_LEAST || span.size > CAR_MOST) {
        if (said[0] == 23)
            seen_car[EARLY_FIRST]++;
        if (said[0] == 24)
            seen_car[STRAY_FIRST]++;
    }
}

static void tally_tick(uint64_t gap)
{
    if (before.place != IN_CAR_MESSAGE)
        return;
    tally_limit(gap, MESSAGE_GAP, GAP_TICK);
    if (said[0] == 10 && span.side == 't')
        tally_limit(gap, before.timing.p2_max, P2_TICK);
    if (said[0] == 10 && span.side == 'e')
        tally_limit(gap, before.timing.p3_max, P3_TICK);
}

/* An address, a wake-up or a drop. */
static void tally_close(const struct event *event, uint64_t gap)
{
    if (before.place == IN_CAR_MESSAGE) {
        tally_limit(gap, MESSAGE_GAP, GAP_CLOSED);
        if (said[0] == 22 && car_fault(&before.message) == 0)
            seen_car[CLOSED_RIGHT + (event->kind == 'A' ? 0 : event->kind == 'W' ? 1 : 2)]++;
        else if (said[0] == 22)
            seen_car[CLOSED_WRONG]++;
    } else if (before.place == SKIPPING && gap <= MESSAGE_GAP) {
        seen_car[CLOSED_DAMAGE]++;
    }
}

/* A byte of the other side comes to a held message: it fails, or under 94 94 ends a request. */
static void tally_other_side(const struct link *link)
{
    bool ends = said_count > 0;

    if (ends) {
        seen_car[said[0] == 10 ? ENDS_RIGHT : ENDS_WRONG + fault_said()]++;
        return;
    }
    seen_car[OTHER_BYTE + (link->edition == CAR_94 ? 2 : span.side == 'e')]++;
    if (span.side == 't' && car_fault(&before.message) == 0)
        seen_car[OTHER_AFTER]++;
    else if (before.message.wrong_head)
        seen_car[OTHER_AFTER + 1]++;
    else if (span.size > CAR_MOST)
        seen_car[OTHER_AFTER + 2]++;
}

/* The first byte of a message has been judged by its time. */
static void tally_first_byte(const struct link *link, const struct event *event, uint64_t gap)
{
    int fault = link->place == SKIPPING ? link->reason : 0;
    int which = link->edition - CAR_08;
    bool first = link->reply == FIRST_DUE || said[0] == 60 || said[1] == 60;
    struct link changed = *link;

    changed.mark = before.mark;
    changed.timing = otherwise;
    if (time_fault(&changed, event) != fault)
        seen_car[SAME_WINDOWS]++;
    if (event->side == 't') {
        tally_limit(gap, link->timing.p3_min - 1, P3_MIN + 2 * which);
    } else if (first || link->reply == FURTHER_DUE) {
        if (link->edition == CAR_08)
            tally_limit(gap, link->timing.p2_min - 1, first ? FIRST_AT_MIN : FURTHER_AT_MIN);
        tally_limit(gap, link->timing.p2_max, (first ? FIRST_AT_MAX : FURTHER_AT_MAX) + 2 * which);
    }
}

static void tally_byte(const struct link *link, const struct event *event, uint64_t gap)
{
    bool begins = before.place == AT_FIRST || said_count > 0;
    bool other = event->side != span.side;

    if (before.place == IN_CAR_MESSAGE) {
        if (!other)
            tally_limit(gap, MESSAGE_GAP, GAP_BYTE);
        else if (gap <= MESSAGE_GAP)
            tally_other_side(link);
        if (other && link->edition == CAR_94 && said[0] == 10 && span.side == 't') {
            tally_limit(gap, MESSAGE_GAP, GAP_REPLY);
            if (gap == 0)
                seen_car[REPLY_AT_ONCE]++;
        }
    } else if (before.place == SKIPPING) {
        tally_limit(gap, MESSAGE_GAP, GAP_DAMAGE);
        if (gap <= MESSAGE_GAP && link->edition == CAR_94 && span.side == 't' && other)
            seen_car[GOES_ON]++;
    }
    if (link->phase != CONNECTED)
        return;
    if (begins) {
        tally_first_byte(link, event, gap);
        span.side = event->side;
        span.size = 0;
    }
    if (span.size < sizeof span.byte)
        span.byte[span.size] = event->value;
    span.size++;
}

static void tally_together(const struct link *link, const struct event *event)
{
    static const struct {
        char kind;
        bool starts;
        int said[4];
    } TABLE[OUT_BEHIND - TOGETHER] = {
        { 'B', false, { 10, 60, 72, 50 } },
        { 'W', false, { 10, 60, 72, 43 } },
        { 'A', false, { 10, 60, 74, 80 } },
        { 'W', false, { 10, 60, 74, 80 } },
        { 'W', false, { 10, 60, 74, 43 } },
        { 'A', true, { 10, 60, 72 } },
        { 'W', true, { 10, 60, 72 } },
        { 'A', true, { 10, 60, 74 } },
        { 'W', true, { 10, 60, 74 } },
        { 'D', false, { 10, 60, 73 } },
        { 'D', false, { 10, 60, 72 } },
        { 'T', false, { 10, 60, 72 } },
    };

    for (int i = 0; i < OUT_BEHIND - TOGETHER; i++)
        if (event->kind == TABLE[i].kind && (link->phase == STARTING) == TABLE[i].starts &&
            memcmp(said, TABLE[i].said, sizeof said) == 0)
            seen_car[TOGETHER + i]++;
    if (said[0] / 10 == DAMAGE && said[1] == 72) {
        if (before.place == SKIPPING)
            seen_car[OUT_BEHIND_DAMAGE]++;
        else
            seen_car[OUT_BEHIND + fault_said()]++;
    }
}

/* An event on a car's link. */
static void tally_car(const struct link *link, const struct event *event)
{
    uint64_t gap = event->start - before.mark;

    if (before.place == IN_CAR_MESSAGE && said_count > 0 && said[0] != 22)
        tally_judged();
    if (before.place == SKIPPING && said_count > 0)
        tally_damage();
    tally_together(link, event);
    if (event->kind == 'T')
        tally_tick(gap);
    else if (event->kind == 'B')
        tally_byte(link, event, gap);
    else
        tally_close(event, gap);
}

static void tally_after(const struct link *link, const struct event *event)
{
    bool start = event->kind == 'A' || event->kind == 'W';

    if (before.phase == STARTING && event->kind == 'B')
        tally_start_byte(link, event);
    else if (before.phase == CONNECTED && before.edition != ISO_14230)
        tally_car(link, event);
    else if (before.phase == DOWN && start && before.edition != ISO_14230 && before.idle == 0 &&
             event->start - before.mark < LONG_IDLE)
        seen_car[SOON_AFTER_CAR]++;
}

static void tally_end(const struct link *link)
{
    if (link->phase == CONNECTED && link->place == IN_CAR_MESSAGE && car_fault(&link->message) == 0)
        seen_car[HELD_AT_END]++;
}
#endif

/* ---- Taking an event ---- */

static enum refusal take(struct link *link, const struct event *event)
{
    if (event->start > LAST_TIME || event->end > LAST_TIME)
        return TIME_TOO_BIG;
    if (event->start > event->end || event->start < link->clock)
        return TIME_BACKWARDS;
    if (link->events == MOST_EVENTS)
        return TOO_MANY;

#ifdef TALLY
    tally_before(link);
#endif
    link->events++;
    link->clock = event->end;
    pass_time(link, event->start);
    if (event->kind == 'B')
        take_byte(link, event);
    else if (event->kind == 'A')
        take_address(link, event);
    else if (event->kind == 'W')
        take_wake_up(link, event);
    else if (event->kind == 'D')
        take_drop(link);
    if (event->kind != 'T' && event->kind != 'D')
        link->mark = event->end;
#ifdef TALLY
    tally_after(link, event);
#endif
    return TAKEN;
}

/* ---- Lines ---- */

/*
 * A reader looks at a line from p on, and says whether what it wants is there: read_time and read_event by the place
 * behind it, or NULL. None looks behind a byte that it does not want, so the line feed keeps all of them in the line.
 */

static int hex_digit(unsigned char c)
{
    if (c >= '0' && c <= '9')
        return c - '0';
    if (c >= 'A' && c <= 'F')
        return c - 'A' + 10;
    return -1;
}

static bool read_value(const unsigned char *p, uint8_t *value)
{
    int high, low;

    if ((high = hex_digit(p[0])) < 0 || (low = hex_digit(p[1])) < 0)
        return false;
    *value = (uint8_t)(high << 4 | low);
    return true;
}

/* 1 to 13 digits; a 14th is left standing, where no line can go on with it. */
static const unsigned char *read_time(const unsigned char *p, uint64_t *time)
{
    uint64_t number = 0;
    int n;

#pragma GCC unroll 13 /* most of the program's time is spent here */
    for (n = 0; n < 13; n++) {
        unsigned digit = p[n] - (unsigned)'0';

        if (digit > 9)
            break;
        number = number * 10 + digit;
    }
    *time = number;
    return n > 0 ? p + n : NULL;
}

static const unsigned char *read_event(const unsigned char *p, struct event *event)
{
    event->kind = (char)*p++;
    event->side = 0;
    event->value = 0;
    if (event->kind == 'B') {
        if (p[0] != ' ' || (p[1] != 't' && p[1] != 'e'))
            return NULL;
        event->side = (char)p[1];
        p += 2;
    }
    if (event->kind == 'A' || event->kind == 'B') {
        if (p[0] != ' ' || !read_value(p + 1, &event->value))
            return NULL;
        p += 3;
    } else if (event->kind != 'W' && event->kind != 'T' && event->kind != 'D') {
        return NULL;
    }
    if (*p != ' ' || (p = read_time(p + 1, &event->start)) == NULL)
        return NULL;
    if (event->kind == 'T' || event->kind == 'D') {
        event->end = event->start;
        return p;
    }
    return *p == ' ' ? read_time(p + 1, &event->end) : NULL;
}

static void refuse(enum refusal number)
{
    begin_line();
    put_text("refused ");
    put_number(number);
    put_text("\n");
#ifdef TALLY
    seen_refusal[number]++;
#endif
}

/* Lists the lines from at to end, each with its line feed. */
static void list_whole_lines(struct link *link, const unsigned char *at, const unsigned char *end)
{
    while (at < end) {
        struct event event;
        const unsigned char *behind = read_event(at, &event);
        enum refusal refusal = UNREADABLE;

        if (behind != NULL && *behind == '\n')
            refusal = take(link, &event);
        else
            behind = memchr(at, '\n', (size_t)(end - at));
        if (refusal != TAKEN)
            refuse(refusal);
        at = behind + 1;
    }
}

/* ---- The listing ---- */

/* The longest readable line: B t 81 and two times of 13 digits */
#define LONGEST_LINE (6 + 14 + 14)

static unsigned char in[65536];

static size_t read_some(int file, size_t kept)
{
    ssize_t n;

    do
        n = read(file, in + kept, sizeof in - kept);
    while (n < 0 && errno == EINTR);
    if (n < 0)
        fail("reading");
    return (size_t)n;
}

static void list_lines(struct link *link, int file)
{
    size_t kept = 0;       /* bytes of a line not ended yet, at the front of the buffer */
    bool too_long = false; /* that line had more, and they are dropped */
    size_t got;

    while ((got = read_some(file, kept)) > 0) {
        const unsigned char *at = in;
        const unsigned char *end = in + kept + got;
        const unsigned char *whole = end; /* behind the last line feed */

        while (whole > in && whole[-1] != '\n')
            whole--;
        if (too_long && whole > in) {
            refuse(UNREADABLE);
            too_long = false;
            at = (const unsigned char *)memchr(in, '\n', sizeof in) + 1;
        }
        list_whole_lines(link, at, whole);
        kept = (size_t)(end - whole);
        if (kept > LONGEST_LINE) {
            too_long = true;
            kept = 0;
        }
        memmove(in, whole, kept);
    }
    if (too_long) {
        refuse(UNREADABLE);
    } else if (kept > 0) {
        in[kept++] = '\n';
        list_whole_lines(link, in, in + kept);
    }
}

static void put_end(const struct link *link)
{
    const struct counts *c = &link->counts;
    const uint64_t numbers[] = {
        c->heard, c->in_frames, c->in_damage, c->in_starts, c->outside, c->frames, c->damages, held(link)
    };

    begin_line();
    put_text("end");
    for (size_t i = 0; i < sizeof numbers / sizeof numbers[0]; i++) {
        put_text(" ");
        put_number(numbers[i]);
    }
    put_text("\n");
}

int main(int argc, char **argv)
{
    static struct link link = { .idle = LONG_IDLE }; /* fresh: down, and all else zero */
    int file = STDIN_FILENO;

    if (argc > 2) {
        fprintf(stderr, "usage: listing [FILE]\n");
        return 1;
    }
    if (argc == 2 && (file = open(argv[1], O_RDONLY)) < 0)
        fail(argv[1]);

    put_text("report reason first bytes time\n");
    list_lines(&link, file);
    put_end(&link);
    flush();
#ifdef TALLY
    tally_end(&link);
    print_tally(link.events);
#endif
    return 0;
}
