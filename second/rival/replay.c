/*
 * replay.c: replays a V830 bench log (document 02, M-100; docs/FORMATS.md, 'replay') as a tuned
 * plain C program: the yardstick for the proved program's speed. Log on standard input, listing on
 * standard output.
 *
 * Nothing of an entry is looked at beyond ENTRY_MOST bytes, so the reader of entries never asks
 * where the input ends: that many zeros stand behind its last byte, and an entry that used one of
 * them was cut. What such an entry did to the module nobody sees, for the listing ends with it.
 * The numbers of answers (0 to 9) and of faults (30 to 34) are apart, so one field holds either.
 */

typedef unsigned char byte;
typedef __UINT32_TYPE__ u32;
typedef __UINT64_TYPE__ u64;
typedef __SIZE_TYPE__ size;

/* The kit has no headers. */
extern long read(int file, void *to, size most);
extern long write(int file, const void *from, size most);
extern void *memcpy(void *to, const void *from, size bytes);
extern void *memmove(void *to, const void *from, size bytes);
extern void *memset(void *to, int content, size bytes);

enum { BUFFER = 65536, ENTRY_MOST = 10, LINE_MOST = 64, DIGITS = 20 };
enum { CHANNELS = 32, CAPACITY = 16384 };

/* Document 01's numbers, of the module and of the log. */
enum {
    DONE = 0, NO_OFFSET = 1, NO_WIDTH = 2, NO_DIRECTION = 3, NO_MEANING = 4, NOTHING_STORED = 5,
    WORDS_STORED = 6, NOT_RANDOM = 7, NO_WORDS = 8, TOO_FEW_FREE = 9,
    LOG_ENDS = 30, NOT_SHORTEST = 31, TOO_LARGE = 32, NO_KIND = 33, OUT_OF_RANGE = 34
};

/* The bits of Control that do something. */
enum { MODE = 0x03, RANDOM = 1, SHORT = 0x04, HEADER = 0x20, CLEAR_EMPTIES = 0x40, AUTO_RESET = 0x80 };

enum { BY_REGISTER = 0, BY_LINE = 1 };

/* The offsets of the registers. */
enum {
    WINDOW_END = 0x1000, COUNTERS = 0x1000, COUNTERS_END = 0x1080, REGISTERS = 0x1100,
    CHANNEL_ENABLE = 0x1100, CONTROL = 0x1108, BIT_SET = 0x110A, BIT_CLEAR = 0x110C,
    SOFTWARE_RESET = 0x1120, SOFTWARE_CLEAR = 0x1122, SOFTWARE_TRIGGER = 0x1124,
    TRIGGER_COUNTER = 0x1128, EVENT_NUMBER = 0x1134, REGISTERS_END = 0x1136
};

/* What a register takes: one of the two widths as it is, and directions. */
enum { READS = 1, WRITES = 2, D16 = 16, D32 = 32 };

/* The digits of 0 to 99. */
static const byte pairs[] =
    "0001020304050607080910111213141516171819202122232425262728293031323334353637383940414243444546474849"
    "5051525354555657585960616263646566676869707172737475767778798081828384858687888990919293949596979899";

/* What stands at every second offset from REGISTERS on; 0 where nothing does. */
static const byte rights[(REGISTERS_END - REGISTERS) / 2] = {
    [(CHANNEL_ENABLE - REGISTERS) / 2] = D32 | READS | WRITES,
    [(CONTROL - REGISTERS) / 2] = D16 | READS | WRITES,
    [(BIT_SET - REGISTERS) / 2] = D16 | WRITES,
    [(BIT_CLEAR - REGISTERS) / 2] = D16 | WRITES,
    [(SOFTWARE_RESET - REGISTERS) / 2] = D16 | WRITES,
    [(SOFTWARE_CLEAR - REGISTERS) / 2] = D16 | WRITES,
    [(SOFTWARE_TRIGGER - REGISTERS) / 2] = D16 | WRITES,
    [(TRIGGER_COUNTER - REGISTERS) / 2] = D32 | READS,
    [(EVENT_NUMBER - REGISTERS) / 2] = D16 | READS,
};

/* The V830 and its event memory. */
struct module {
    u32 counts[CHANNELS];
    u32 control, enable, triggers, veto;
    u32 enabled;              /* how many ones enable has */
    byte channels[CHANNELS];  /* the enabled channels, ascending */
    u32 first, stored;        /* place of the oldest stored word, and how many are stored */
    u32 memory[CAPACITY];
};

/* What a number or an entry gives: the byte after it, a number of document 01, and a value. */
struct reply {
    const byte *after;
    u32 answer, value;
};

/* An entry's number in decimal, counted up in place: all digits but the last as text, and the last. */
struct count {
    byte text[DIGITS];
    u32 length, unit;
};

/* Standard input: what is in the buffer, and how many bytes went before it. */
struct input {
    const byte *at, *end;
    u64 before;
    int ended;
    byte buffer[BUFFER + ENTRY_MOST];
};

/* Standard output: the lines not yet written. */
struct output {
    byte buffer[BUFFER];
};

static struct module module;
static struct input input;
static struct output output;

/* ---- The module ---- */

/* Puts a value in Channel Enable. */
static void set_enable(struct module *m, u32 enable) {
    u32 n = 0, channel = 0;
    for (u32 rest = enable; rest != 0; rest >>= 1) {
        m->channels[n] = (byte)channel++;
        n += rest & 1;
    }
    m->enable = enable;
    m->enabled = n;
}

/* Sets all counters to 0. */
static void zero_counts(struct module *m) {
    memset(m->counts, 0, sizeof m->counts);
}

/* Empties the memory; no word is written. */
static void empty(struct module *m) {
    m->first = 0;
    m->stored = 0;
}

/* An event's length in words. */
static u32 event_length(const struct module *m) {
    return m->enabled + (m->control & HEADER ? 1 : 0);
}

/* Puts a good value in Control, which clears the counters, the Trigger Counter and the memory. */
static void set_control(struct module *m, u32 control) {
    m->control = control;
    m->triggers = 0;
    zero_counts(m);
    empty(m);
}

/* Makes all but the VETO line what it is at power-on. */
static void reset(struct module *m) {
    set_control(m, 0);
    set_enable(m, 0xFFFFFFFF);
}

/* CLEAR, by line or by register. */
static void clear(struct module *m) {
    zero_counts(m);
    if (m->control & CLEAR_EMPTIES) empty(m);
}

/* Stores an event behind the stored words, which must have room for it. */
static void store(struct module *m, u32 source) {
    u32 at = m->first + m->stored;
    if (m->control & HEADER)
        m->memory[at++ % CAPACITY] = 1u << 26 | m->enabled << 18 | source << 16 | (m->triggers & 0xFFFF);
    if (m->control & SHORT) {
        for (u32 i = 0; i < m->enabled; i++) {
            u32 channel = m->channels[i];
            m->memory[at++ % CAPACITY] = channel << 27 | (m->counts[channel] & 0x3FFFFFF);
        }
    } else if (m->enabled == CHANNELS && at % CAPACITY <= CAPACITY - CHANNELS) {
        memcpy(m->memory + at % CAPACITY, m->counts, sizeof m->counts);
    } else {
        for (u32 i = 0; i < m->enabled; i++) m->memory[at++ % CAPACITY] = m->counts[m->channels[i]];
    }
}

/* A trigger; its answer. */
static u32 trigger(struct module *m, u32 source) {
    u32 length = event_length(m);
    if ((m->control & MODE) != RANDOM) return NOT_RANDOM;
    if (length == 0) return NO_WORDS;
    if (CAPACITY - m->stored < length) return TOO_FEW_FREE;
    m->triggers++;
    store(m, source);
    m->stored += length;
    if (m->control & AUTO_RESET) zero_counts(m);
    return DONE;
}

/* A write to one of the three Control addresses, by its result; its answer. */
static u32 write_control(struct module *m, u32 result) {
    if ((result & MODE) == MODE) return NO_MEANING;
    set_control(m, result & 0xFF);
    return DONE;
}

/* A write to Channel Enable; its answer. */
static u32 write_enable(struct module *m, u32 enable) {
    if (m->stored != 0) return WORDS_STORED;
    set_enable(m, enable);
    return DONE;
}

/* A write to a register that takes it; its answer. */
static u32 write_register(struct module *m, u32 offset, u32 data) {
    switch (offset) {
    case CHANNEL_ENABLE: return write_enable(m, data);
    case CONTROL: return write_control(m, data);
    case BIT_SET: return write_control(m, m->control | data);
    case BIT_CLEAR: return write_control(m, m->control & ~data);
    case SOFTWARE_TRIGGER: return trigger(m, BY_REGISTER);
    case SOFTWARE_RESET: reset(m); return DONE;
    default: clear(m); return DONE;
    }
}

/* Takes the oldest stored word, of which there must be one. */
static u32 take_word(struct module *m) {
    u32 word = m->memory[m->first];
    m->first = (m->first + 1) % CAPACITY;
    m->stored--;
    return word;
}

/* MEB Event Number: words stored over event length, rounded up. */
static u32 event_number(const struct module *m) {
    u32 length = event_length(m);
    return m->stored == 0 ? 0 : (m->stored + length - 1) / length;
}

/* A read, other than of the window, of a register that takes it; its value. */
static u32 read_register(const struct module *m, u32 offset) {
    if (offset < COUNTERS_END) return m->counts[(offset - COUNTERS) / 4];
    switch (offset) {
    case CHANNEL_ENABLE: return m->enable;
    case CONTROL: return m->control;
    case TRIGGER_COUNTER: return m->triggers;
    default: return event_number(m);
    }
}

/* What the register at an offset takes; 0 where there is none. */
static u32 rights_at(u32 offset) {
    if (offset < COUNTERS_END) return offset % 4 == 0 ? D32 | READS : 0;
    if (offset < REGISTERS || offset >= REGISTERS_END || offset % 2 != 0) return 0;
    return rights[(offset - REGISTERS) / 2];
}

/* The refusal of an access of this width (16 or 32) and direction, or DONE. */
static u32 refusal(u32 offset, u32 width, u32 direction) {
    u32 taken = rights_at(offset);
    if (taken == 0) return NO_OFFSET;
    if (!(taken & width)) return NO_WIDTH;
    return taken & direction ? DONE : NO_DIRECTION;
}

/* ---- The log ---- */

/* A reply. */
static struct reply reply(const byte *after, u32 answer, u32 value) {
    struct reply r = { after, answer, value };
    return r;
}

/* Reads a number of more than one group. */
static struct reply read_groups(const byte *p) {
    u32 value = *p++ & 0x7F;
    for (u32 shift = 7; ; shift += 7) {
        u32 group = *p++;
        if (shift == 28 && group > 0x0F) return reply(p, TOO_LARGE, 0);
        if (group == 0) return reply(p, NOT_SHORTEST, 0);
        value |= (group & 0x7F) << shift;
        if (group < 0x80) return reply(p, DONE, value);
    }
}

/* Reads a number; most have one group or two. */
static inline struct reply read_number(const byte *p) {
    if (p[0] < 0x80) return reply(p + 1, DONE, p[0]);
    if (p[1] < 0x80 && p[1] != 0) return reply(p + 2, DONE, (p[0] & 0x7Fu) | (u32)p[1] << 7);
    return read_groups(p);
}

/* Reads a number that may not stand here: its own fault, or the given one. */
static struct reply faulty(const byte *p, u32 fault) {
    struct reply r = read_number(p);
    if (r.answer == DONE) r.answer = fault;
    return r;
}

/* Kind 0: pulses on a channel's input. */
static inline struct reply pulses(struct module *m, const byte *p) {
    u32 channel = *p;
    if (channel >= CHANNELS) return faulty(p, OUT_OF_RANGE);
    struct reply many = read_number(p + 1);
    if (many.answer != DONE) return many;
    if (!m->veto) m->counts[channel] += many.value;
    return reply(many.after, DONE, 0);
}

/* Kind 1: the VETO line. */
static inline struct reply veto(struct module *m, const byte *p) {
    if (*p > 1) return faulty(p, OUT_OF_RANGE);
    m->veto = *p;
    return reply(p + 1, DONE, 0);
}

/* Kind 2: a TEST pulse, which VETO does not stop. */
static inline struct reply test(struct module *m, const byte *p) {
    for (u32 channel = 0; channel < CHANNELS; channel++) m->counts[channel]++;
    return reply(p, DONE, 0);
}

/* Kind 3: the CLEAR line. */
static inline struct reply clear_line(struct module *m, const byte *p) {
    clear(m);
    return reply(p, DONE, 0);
}

/* Reads an offset, behind which a good width of one byte stands. */
static inline struct reply read_offset(const byte *p) {
    struct reply offset = read_number(p);
    if (offset.answer != DONE) return offset;
    if (offset.value > 0xFFFF) return reply(offset.after, OUT_OF_RANGE, 0);
    u32 width = *offset.after;
    if (width != D16 && width != D32) return faulty(offset.after, OUT_OF_RANGE);
    return offset;
}

/* Kind 5: a read. */
static inline struct reply read_access(struct module *m, const byte *p) {
    struct reply offset = read_offset(p);
    if (offset.answer != DONE) return offset;
    const byte *after = offset.after + 1;
    u32 refused = refusal(offset.value, *offset.after, READS);
    if (refused) return reply(after, refused, 0);
    if (offset.value >= WINDOW_END) return reply(after, DONE, read_register(m, offset.value));
    if (m->stored == 0) return reply(after, NOTHING_STORED, 0);
    return reply(after, DONE, take_word(m));
}

/* Kind 6: a write. */
static inline struct reply write_access(struct module *m, const byte *p) {
    struct reply offset = read_offset(p);
    if (offset.answer != DONE) return offset;
    u32 width = *offset.after;
    struct reply data = read_number(offset.after + 1);
    if (data.answer != DONE) return data;
    if (width == D16 && data.value > 0xFFFF) return reply(data.after, OUT_OF_RANGE, 0);
    u32 refused = refusal(offset.value, width, WRITES);
    if (refused) return reply(data.after, refused, 0);
    return reply(data.after, write_register(m, offset.value, data.value), 0);
}

/* Reads one entry and runs it; a tree of comparisons costs less than a jump through a table. */
static inline struct reply run_entry(struct module *m, const byte *p) {
    u32 kind = *p;
    if (kind < 2) return kind == 0 ? pulses(m, p + 1) : veto(m, p + 1);
    if (kind < 5) {
        if (kind == 4) return reply(p + 1, trigger(m, BY_LINE), 0);
        return kind == 3 ? clear_line(m, p + 1) : test(m, p + 1);
    }
    if (kind < 7) return kind == 5 ? read_access(m, p + 1) : write_access(m, p + 1);
    return kind == 7 ? reply(p + 1, NO_MEANING, 0) : faulty(p, NO_KIND);
}

/* ---- Input and output ---- */

/* Brings a whole entry into the buffer, or all that is left and zeros; whether that could be done. */
static int fill(struct input *in) {
    size have = in->end - in->at;
    in->before += in->at - in->buffer;
    memmove(in->buffer, in->at, have);
    while (have < ENTRY_MOST && !in->ended) {
        long got = read(0, in->buffer + have, BUFFER - have);
        if (got < 0) return 0;
        in->ended = got == 0;
        have += got;
    }
    memset(in->buffer + have, 0, ENTRY_MOST);
    in->at = in->buffer;
    in->end = in->buffer + have;
    return 1;
}

/* Writes out the buffer up to a place; whether that could be done. */
static int flush(struct output *out, const byte *end) {
    const byte *from = out->buffer;
    while (from < end) {
        long gone = write(1, from, end - from);
        if (gone <= 0) return 0;
        from += gone;
    }
    return 1;
}

/* Puts a number in decimal, two digits at a time; the place after it. */
static byte *put_number(byte *to, u64 number) {
    byte text[2 * DIGITS] = { 0 };
    u32 at = DIGITS;
    for (; number >= 100; number /= 100) memcpy(text + (at -= 2), pairs + number % 100 * 2, 2);
    memcpy(text + (at -= 2), pairs + number * 2, 2);
    if (number < 10) at++;
    memcpy(to, text + at, DIGITS);
    return to + (DIGITS - at);
}

/* Counts one up. */
static inline void count_up(struct count *c) {
    if (++c->unit < 10) return;
    u32 at = c->length;
    c->unit = 0;
    while (at > 0 && c->text[at - 1] == '9') c->text[--at] = '0';
    if (at > 0) {
        c->text[at - 1]++;
    } else {
        c->text[c->length++] = '0';
        c->text[0] = '1';
    }
}

/* Puts an entry's line; the place after it. */
static inline byte *put_line(byte *to, const struct count *c, u32 answer, u32 value) {
    memcpy(to, c->text, DIGITS);
    to += c->length;
    *to++ = (byte)('0' + c->unit);
    *to++ = ' ';
    *to++ = (byte)('0' + answer);
    *to++ = ' ';
    if (value < 10) *to++ = (byte)('0' + value);
    else to = put_number(to, value);
    *to++ = '\n';
    return to;
}

/* Puts the line of a fault; the place after it. */
static byte *put_fault(byte *to, u32 fault, u64 place) {
    memcpy(to, "fault ", 6);
    to = put_number(to + 6, fault);
    *to++ = ' ';
    to = put_number(to, place);
    *to++ = '\n';
    return to;
}

/* Replays the log; whether it could be read and the listing written. */
static int replay(struct module *m, struct input *in, struct output *out) {
    struct count entry = { "", 0, 0 };
    const byte *at = in->at, *end = in->end;
    byte *to = out->buffer;
    memcpy(to, "entry answer value\n", 19);
    to += 19;
    for (;;) {
        if (end - at < ENTRY_MOST) {
            in->at = at;
            if (!fill(in)) return 0;
            at = in->at;
            end = in->end;
            if (at == end) return flush(out, to);
        }
        if (out->buffer + BUFFER - to < LINE_MOST) {
            if (!flush(out, to)) return 0;
            to = out->buffer;
        }
        struct reply r = run_entry(m, at);
        if (r.after > end) r.answer = LOG_ENDS;
        if (r.answer >= LOG_ENDS) {
            to = put_fault(to, r.answer, in->before + (at - in->buffer));
            return flush(out, to);
        }
        count_up(&entry);
        to = put_line(to, &entry, r.answer, r.value);
        at = r.after;
    }
}

/* Starts a fresh module and replays standard input on it. */
int main(void) {
    reset(&module);
    input.at = input.end = input.buffer;
    return replay(&module, &input, &output) ? 0 : 1;
}
