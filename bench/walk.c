/* The same readers, writers, lister and receiver in plain C, for bench/run: the same checks in the same order into the same records, and the fold of
   bench/ours/lib.rattle, so that the two can be compared number by number. A table is filled as far as it goes and not cleared. */
#include <stddef.h>
#include <stdint.h>
#include <string.h>

#define LIMIT 1048576
#define TLVS 32
#define COUNTERS 64
#define LONGEST 65536
#define ENOUGH 196656
#define BUFFER 65536
#define LONGEST_PIECE 4096

enum { GOOD, TOO_LONG, CUT, BAD_VERSION, UNKNOWN_KIND, BAD_TLV_TYPE, BGP_LENGTH, TOO_MANY, BAD_OPEN_BMP, UNSUPPORTED, BAD_MESSAGE_LENGTH,
       NO_ROOM, BAD_FIELD, STREAM_TOO_BIG = 15 };
enum { MONITORING, STATISTICS, PEER_DOWN, PEER_UP, INITIATION, TERMINATION, MIRRORING };
enum { LOC_RIB = 3, IPV6 = 0x80, SHORT_AS = 0x20 };

typedef struct { uint8_t number; size_t place, missing; } Refusal;
typedef struct { size_t place, length; } View;
typedef struct { uint8_t octets[16]; int v6; } Ip;

static uint16_t be16(const uint8_t *p) { return (uint16_t)(p[0] << 8 | p[1]); }
static uint32_t be32(const uint8_t *p) { return (uint32_t)be16(p) << 16 | be16(p + 2); }
static uint64_t be64(const uint8_t *p) { return (uint64_t)be32(p) << 32 | be32(p + 4); }
static void put16(uint8_t *p, uint16_t x) { p[0] = x >> 8; p[1] = x; }
static void put32(uint8_t *p, uint32_t x) { put16(p, x >> 16); put16(p + 2, x); }
static void put64(uint8_t *p, uint64_t x) { put32(p, x >> 32); put32(p + 4, x); }

static uint64_t mix(uint64_t h, uint64_t x) { return (h << 7 | h >> 57) ^ x; }
static uint64_t of_refusal(Refusal r) { return mix(mix(r.number, r.place), r.missing) | 1ul << 63; }
static uint64_t with_view(uint64_t h, View v) { return mix(mix(h, v.place), v.length); }
static uint64_t with_time(uint64_t h, double time) {
    uint64_t bits;
    memcpy(&bits, &time, 8);
    return mix(h, bits);
}
static uint64_t with_ip(uint64_t h, const Ip *ip) {
    return mix(mix(mix(mix(h, ip->v6 ? 6 : 4), ip->octets[0]), ip->octets[12]), ip->octets[15]);
}

static Refusal refused(uint8_t number, size_t place) { return (Refusal){number, place, 0}; }
static Refusal cut(size_t place, size_t missing) { return (Refusal){CUT, place, missing}; }
static const Refusal good = {GOOD, 0, 0};

/* The field in which a run of fields ends too early, and what it lacks. */
static Refusal cut_in(const size_t *widths, size_t n, size_t length) {
    size_t place = 0, i = 0;
    for (; i < n - 1 && length - place >= widths[i]; i++) place += widths[i];
    return cut(place, place + widths[i] - length);
}

static double time_of(uint32_t seconds, uint32_t microseconds) { return (double)seconds + (double)microseconds / 1000000.0; }

/* ---- headers */

typedef struct { uint8_t version, kind; uint32_t length; size_t stop; } Common;

static int known(const Common *a) { return a->kind <= MIRRORING; }

/* Of any type. */
static Refusal read_fields(const uint8_t *s, size_t n, Common *a) {
    if (n > LIMIT) return refused(TOO_LONG, 0);
    if (n < 1) return cut(0, 1);
    if (s[0] != 3) return refused(BAD_VERSION, 0);
    if (n < 5) return cut(1, 5 - n);
    if (n < 6) return cut(5, 1);
    *a = (Common){3, s[5], be32(s + 1), 6};
    return good;
}

static Refusal read_common(const uint8_t *s, size_t n, Common *a) {
    Refusal r = read_fields(s, n, a);
    if (r.number) return r;
    return known(a) ? good : refused(UNKNOWN_KIND, 5);
}

static Refusal split(const uint8_t *s, size_t n, Common *a) {
    Refusal r = read_fields(s, n, a);
    if (r.number) return r;
    if (a->length < 6) return refused(BAD_MESSAGE_LENGTH, 1);
    if (a->length > LIMIT) return refused(TOO_LONG, 1);
    if (n < a->length) return cut(6, a->length - n);
    return good;
}

typedef struct {
    uint8_t type, flags;
    uint64_t distinguisher;
    Ip ip;
    uint32_t asn, id, seconds, microseconds, warnings;
    double timestamp;
    size_t stop;
} Peer;

static Refusal read_peer(const uint8_t *s, size_t n, Peer *a) {
    static const size_t widths[] = {1, 1, 8, 16, 4, 4, 4, 4};
    static const uint8_t zeros[16];
    if (n > LIMIT) return refused(TOO_LONG, 0);
    if (n && s[0] > LOC_RIB) return refused(UNKNOWN_KIND, 0);
    if (n < 42) return cut_in(widths, 8, n);
    a->type = s[0], a->flags = s[1];
    a->distinguisher = be64(s + 2);
    a->asn = be32(s + 26), a->id = be32(s + 30);
    a->seconds = be32(s + 34), a->microseconds = be32(s + 38);
    a->timestamp = time_of(a->seconds, a->microseconds);
    a->stop = 42, a->warnings = 0;
    memset(&a->ip, 0, sizeof a->ip);
    if (a->type == LOC_RIB) {
        a->warnings = (memcmp(s + 10, zeros, 16) != 0) + (a->id == 0 && a->distinguisher != 0 ? 2 : 0);
        return good;
    }
    a->ip.v6 = (a->flags & IPV6) != 0;
    if (a->ip.v6) memcpy(a->ip.octets, s + 10, 16);
    else memcpy(a->ip.octets + 12, s + 22, 4);
    if (a->flags & SHORT_AS) a->asn &= 0xffff;
    return good;
}

typedef struct {
    uint8_t major, minor, type;
    uint16_t header_len;
    uint32_t msg_len, seconds, microseconds;
    double timestamp;
    View admin, group;
    Ip ip;
    size_t stop;
} OpenBmp;

static Refusal cut_openbmp(size_t n, size_t admin, size_t group) {
    size_t widths[] = {4, 1, 1, 2, 4, 1, 1, 4, 4, 16, 2, admin, 16, 16, 2, group, 4};
    return cut_in(widths, 17, n);
}

static void fill_openbmp(const uint8_t *s, size_t admin, size_t group, OpenBmp *a) {
    a->major = s[4], a->minor = s[5], a->type = s[13];
    a->header_len = be16(s + 6), a->msg_len = be32(s + 8);
    a->seconds = be32(s + 14), a->microseconds = be32(s + 18);
    a->timestamp = time_of(a->seconds, a->microseconds);
    a->admin = (View){40, admin};
    a->group = (View){74 + admin, group};
    a->ip.v6 = (s[12] & 0x40) != 0;
    memset(a->ip.octets, 0, 16);
    memcpy(a->ip.octets, s + 56 + admin, a->ip.v6 ? 16 : 4);
    a->stop = 78 + admin + group;
}

static Refusal read_openbmp(const uint8_t *s, size_t n, OpenBmp *a) {
    if (n > LIMIT) return refused(TOO_LONG, 0);
    if (n < 4) return cut_openbmp(n, 0, 0);
    if (be32(s) != 0x4F424D50) return refused(BAD_OPEN_BMP, 0);
    if (n < 6) return cut_openbmp(n, 0, 0);
    if (s[4] != 1 || s[5] != 7) return refused(BAD_OPEN_BMP, 4);
    if (n < 13) return cut_openbmp(n, 0, 0);
    if (!(s[12] & 0x80)) return refused(UNSUPPORTED, 12);
    if (n < 14) return cut_openbmp(n, 0, 0);
    if (s[13] != 12) return refused(UNSUPPORTED, 13);
    if (n < 40) return cut_openbmp(n, 0, 0);
    size_t admin = be16(s + 38);
    if (n < 74 + admin) return cut_openbmp(n, admin, 0);
    size_t group = be16(s + 72 + admin);
    if (n < 78 + admin + group) return cut_openbmp(n, admin, group);
    if (be32(s + 74 + admin + group) != 1) return refused(BAD_OPEN_BMP, 74 + admin + group);
    fill_openbmp(s, admin, group, a);
    return good;
}

/* ---- bodies */

typedef struct { uint16_t kind, length, afi, safi; uint64_t value; } Counter;
typedef struct { Counter counters[COUNTERS]; size_t count; uint32_t stats_count; size_t stop; } Stats;

static Refusal read_stats(const uint8_t *s, size_t n, Stats *a) {
    if (n > LIMIT) return refused(TOO_LONG, 0);
    if (n < 4) return cut(0, 4 - n);
    uint32_t wanted = be32(s);
    size_t at = 4, count = 0;
    for (; count < wanted; count++) {
        size_t left = n - at;
        if (left < 2) return cut(at, 2 - left);
        if (left < 4) return cut(at + 2, 4 - left);
        uint16_t kind = be16(s + at), length = be16(s + at + 2);
        if (left - 4 < length) return cut(at + 4, length - (left - 4));
        if (count == COUNTERS) return refused(TOO_MANY, at);
        const uint8_t *v = s + at + 4;
        Counter *c = &a->counters[count];
        switch (length) {
        case 4: *c = (Counter){kind, length, 0, 0, be32(v)}; break;
        case 8: *c = (Counter){kind, length, 0, 0, be64(v)}; break;
        case 11: *c = (Counter){kind, length, be16(v), v[2], be64(v + 3)}; break;
        default: *c = (Counter){kind, length, 0, 0, at + 4};
        }
        at += 4 + length;
    }
    a->count = count, a->stats_count = wanted, a->stop = at;
    return good;
}

/* The number is the place of a value, or the code that it is. */
typedef struct { uint16_t kind, length; uint32_t number; } Tlv;
typedef struct { Tlv tlvs[TLVS]; size_t count, stop, tail; } Tlvs;

static Refusal read_initiation(const uint8_t *s, size_t n, Tlvs *a) {
    if (n > LIMIT) return refused(TOO_LONG, 0);
    size_t at = 0, stop, count = 0;
    for (;; count++) {
        stop = at;
        if (n - at <= 4) break;
        uint16_t kind = be16(s + at), length = be16(s + at + 2);
        stop = at + 4;
        if (n - stop < length) break;
        if (count == TLVS) return refused(TOO_MANY, at);
        a->tlvs[count] = (Tlv){kind, length, at + 4};
        at += 4 + length;
    }
    a->count = count, a->stop = stop, a->tail = at;
    return good;
}

static Refusal read_termination(const uint8_t *s, size_t n, Tlvs *a) {
    if (n > LIMIT) return refused(TOO_LONG, 0);
    size_t at = 0, stop, count = 0;
    for (;; count++) {
        stop = at;
        if (n - at <= 4) break;
        uint16_t kind = be16(s + at), length = be16(s + at + 2), size = length;
        if (kind > 1) return refused(UNKNOWN_KIND, at);
        stop = at + 4;
        if (n - stop < length) break;
        uint32_t number = at + 4;
        if (kind == 1) {
            if (n - stop < 2) return cut(at + 4, 2 - (n - stop));
            number = be16(s + at + 4);
            size = 2;
            if (number > 4) return refused(UNKNOWN_KIND, at + 4);
        }
        if (count == TLVS) return refused(TOO_MANY, at);
        a->tlvs[count] = (Tlv){kind, length, number};
        at += 4 + size;
    }
    a->count = count, a->stop = stop, a->tail = at;
    return good;
}

static Refusal read_mirroring(const uint8_t *s, size_t n, Tlvs *a) {
    if (n > LIMIT) return refused(TOO_LONG, 0);
    size_t at = 0, count = 0;
    for (; n - at > 4; count++) {
        uint16_t kind = be16(s + at), length = be16(s + at + 2), size = length;
        uint32_t number = at + 4;
        if (kind > 1) return refused(BAD_TLV_TYPE, at);
        if (kind == 0) {
            if (length < 19) return refused(BGP_LENGTH, at + 2);
            if (n - at - 4 < length) return cut(at + 4, length - (n - at - 4));
        } else {
            if (n - at - 4 < 2) return cut(at + 4, 2 - (n - at - 4));
            number = be16(s + at + 4);
            size = 2;
            if (number > 1) return refused(UNKNOWN_KIND, at + 4);
        }
        if (count == TLVS) return refused(TOO_MANY, at);
        a->tlvs[count] = (Tlv){kind, length, number};
        at += 4 + size;
    }
    a->count = count, a->stop = a->tail = at;
    return good;
}

typedef struct { View message; size_t stop; uint32_t warnings; } Monitoring;

static Refusal read_monitoring(const uint8_t *s, size_t n, int short_as, uint8_t type, Monitoring *a) {
    (void)s;
    if (n > LIMIT) return refused(TOO_LONG, 0);
    if (n < 19) return cut(0, 19 - n);
    *a = (Monitoring){{0, n}, n, type == LOC_RIB && short_as ? 4 : 0};
    return good;
}

typedef struct { Ip local; uint16_t local_port, remote_port; View sent, received; Tlvs list; uint32_t warnings; } PeerUp;

static Refusal open_at(const uint8_t *s, size_t n, size_t at, View *v) {
    if (n - at < 19) return cut(at, 19 - (n - at));
    uint16_t length = be16(s + at + 16);
    if (length < 19) return refused(BGP_LENGTH, at + 16);
    if (n - at < length) return cut(at, length - (n - at));
    *v = (View){at, length};
    return good;
}

/* The TLVs of a Peer Up, and what they tell of a Loc-RIB's table name. */
static Refusal read_up_tlvs(const uint8_t *s, size_t n, size_t at, uint8_t type, PeerUp *a) {
    int named = 0, bad = 0;
    size_t count = 0;
    for (; n - at >= 4; count++) {
        uint16_t kind = be16(s + at), length = be16(s + at + 2);
        if (n - at - 4 < length) return cut(at + 4, length - (n - at - 4));
        if (count == TLVS) return refused(TOO_MANY, at);
        a->list.tlvs[count] = (Tlv){kind, length, at + 4};
        named |= kind == 3;
        bad |= kind == 3 && (length == 0 || length > 255);
        at += 4 + length;
    }
    a->list.count = count, a->list.stop = at;
    a->warnings = type == LOC_RIB ? (bad ? 8 : 0) + (named ? 0 : 16) : 0;
    return good;
}

static Refusal read_peer_up(const uint8_t *s, size_t n, int v6, uint8_t type, PeerUp *a) {
    static const size_t widths[] = {16, 2, 2};
    if (n > LIMIT) return refused(TOO_LONG, 0);
    if (n < 20) return cut_in(widths, 3, n);
    Refusal r = open_at(s, n, 20, &a->sent);
    if (r.number) return r;
    r = open_at(s, n, 20 + a->sent.length, &a->received);
    if (r.number) return r;
    memset(a->local.octets, 0, 16);
    a->local.v6 = v6;
    if (v6) memcpy(a->local.octets, s, 16);
    else memcpy(a->local.octets + 12, s + 12, 4);
    a->local_port = be16(s + 16), a->remote_port = be16(s + 18);
    return read_up_tlvs(s, n, 20 + a->sent.length + a->received.length, type, a);
}

typedef struct { uint8_t reason; int present; View data; size_t stop; } PeerDown;

static int has_data(uint8_t reason, size_t rest) { return reason == 0 ? rest > 0 : reason != 4 && reason != 5; }

static Refusal read_peer_down(const uint8_t *s, size_t n, PeerDown *a) {
    if (n > LIMIT) return refused(TOO_LONG, 0);
    if (n < 1) return cut(0, 1);
    if (s[0] > 6) return refused(UNKNOWN_KIND, 0);
    int present = has_data(s[0], n - 1);
    *a = (PeerDown){s[0], present, {1, n - 1}, present ? n : 1};
    return good;
}

/* ---- the readers as they are measured */

#define READ(call) do { Refusal r_ = call; if (r_.number) return of_refusal(r_); } while (0)

static uint64_t with_tlv(uint64_t h, uint16_t kind, uint16_t length, uint32_t number) {
    return mix(h, kind | (uint64_t)length << 16 | (uint64_t)number << 32);
}

static uint64_t with_tlvs(uint64_t h, const Tlvs *a) {
    for (size_t i = 0; i < a->count; i++) h = with_tlv(h, a->tlvs[i].kind, a->tlvs[i].length, a->tlvs[i].number);
    return h;
}

static uint64_t of_peer(const Peer *a) {
    uint64_t h = mix(mix(mix(a->stop, a->warnings), a->type), a->flags);
    h = with_ip(mix(h, a->distinguisher), &a->ip);
    h = with_time(mix(mix(h, a->asn), a->id), a->timestamp);
    return mix(mix(h, a->seconds), a->microseconds);
}

#define READER(name, Record, call, folded) \
    uint64_t c_##name(const uint8_t *s, size_t n) { \
        Record a; \
        READ(call); \
        return folded; \
    }

READER(common, Common, read_common(s, n, &a), mix(mix(a.stop, a.length), a.kind))
READER(split, Common, split(s, n, &a), mix(mix(with_view(!known(&a), (View){0, a.length}), a.length), a.kind))
READER(perpeer, Peer, read_peer(s, n, &a), of_peer(&a))
READER(initiation, Tlvs, read_initiation(s, n, &a), with_tlvs(mix(a.stop, a.tail), &a))
READER(termination, Tlvs, read_termination(s, n, &a), with_tlvs(mix(a.stop, a.tail), &a))
READER(mirroring, Tlvs, read_mirroring(s, n, &a), with_tlvs(a.stop, &a))

uint64_t c_openbmp(const uint8_t *s, size_t n) {
    OpenBmp a;
    READ(read_openbmp(s, n, &a));
    uint64_t h = with_time(mix(mix(a.stop, a.header_len), a.msg_len), a.timestamp);
    h = mix(mix(h, a.seconds), a.microseconds);
    return with_view(with_ip(with_view(h, a.admin), &a.ip), a.group);
}

uint64_t c_stats(const uint8_t *s, size_t n) {
    Stats a;
    READ(read_stats(s, n, &a));
    uint64_t h = mix(a.stop, a.stats_count);
    for (size_t i = 0; i < a.count; i++) {
        const Counter *c = &a.counters[i];
        h = mix(with_tlv(h, c->kind, c->length, c->afi | (uint32_t)c->safi << 16), c->value);
    }
    return h;
}

static uint64_t of_monitoring(const uint8_t *s, size_t n, int short_as, uint8_t type) {
    Monitoring a;
    READ(read_monitoring(s, n, short_as, type, &a));
    return with_view(mix(a.stop, a.warnings), a.message);
}

uint64_t c_monitoring(const uint8_t *s, size_t n) { return of_monitoring(s, n, 0, 0); }

static uint64_t of_peer_up(const uint8_t *s, size_t n, int v6, uint8_t type) {
    PeerUp a;
    READ(read_peer_up(s, n, v6, type, &a));
    uint64_t h = with_ip(mix(a.list.stop, a.warnings), &a.local);
    h = mix(mix(h, a.local_port), a.remote_port);
    return with_tlvs(with_view(with_view(h, a.sent), a.received), &a.list);
}

uint64_t c_peerup(const uint8_t *s, size_t n) { return of_peer_up(s, n, 0, 0); }

uint64_t c_peerdown(const uint8_t *s, size_t n) {
    PeerDown a;
    READ(read_peer_down(s, n, &a));
    uint64_t h = mix(a.stop, a.reason);
    return a.present ? with_view(mix(h, 1), a.data) : h;
}

/* ---- whole messages and the lister */

static uint64_t of_body(uint8_t kind, const Peer *p, const uint8_t *s, size_t n) {
    switch (kind) {
    case MONITORING: return of_monitoring(s, n, p->type != LOC_RIB && p->flags & SHORT_AS, p->type);
    case STATISTICS: return c_stats(s, n);
    case PEER_DOWN: return c_peerdown(s, n);
    case PEER_UP: return of_peer_up(s, n, p->ip.v6, p->type);
    default: return c_mirroring(s, n);
    }
}

static uint64_t of_message(uint8_t kind, const uint8_t *s, size_t n) {
    if (kind == INITIATION) return c_initiation(s, n);
    if (kind == TERMINATION) return c_termination(s, n);
    Peer p;
    READ(read_peer(s, n, &p));
    return mix(of_peer(&p), of_body(kind, &p, s + 42, n - 42));
}

uint64_t c_message(const uint8_t *s, size_t n, uint64_t *sum) {
    Common a;
    if (split(s, n, &a).number) return 0;
    if (known(&a)) *sum ^= of_message(a.kind, s + 6, a.length - 6);
    return a.length;
}

/* The number that what follows the common header is answered with. */
static uint8_t answer_of(uint8_t kind, const uint8_t *s, size_t n) {
    union { Tlvs tlvs; Stats stats; Monitoring monitoring; PeerDown down; PeerUp up; } a;
    Peer p;
    if (kind == INITIATION) return read_initiation(s, n, &a.tlvs).number;
    if (kind == TERMINATION) return read_termination(s, n, &a.tlvs).number;
    uint8_t number = read_peer(s, n, &p).number;
    if (number) return number;
    s += 42, n -= 42;
    switch (kind) {
    case MONITORING: return read_monitoring(s, n, 0, p.type, &a.monitoring).number;
    case STATISTICS: return read_stats(s, n, &a.stats).number;
    case PEER_DOWN: return read_peer_down(s, n, &a.down).number;
    case PEER_UP: return read_peer_up(s, n, p.ip.v6, p.type, &a.up).number;
    default: return read_mirroring(s, n, &a.tlvs).number;
    }
}

/* A number and the byte behind it; no number of a listing has more digits. */
static uint8_t *put_field(uint8_t *o, size_t x, uint8_t behind) {
    uint8_t digits[8], k = 0;
    do digits[k++] = '0' + x % 10;
    while (x /= 10);
    while (k) *o++ = digits[--k];
    *o++ = behind;
    return o;
}

static uint8_t *put_text(uint8_t *o, const char *text) {
    memcpy(o, text, strlen(text));
    return o + strlen(text);
}

/* As ours where the output has room for every listing; the other case is not measured. */
uint64_t c_list(const uint8_t *s, size_t n, uint8_t *out, size_t room) {
    if (room < ENOUGH) return 0;
    uint8_t *o = put_text(out, "place type length answer\n");
    size_t at = 0;
    Refusal r = n > LONGEST ? refused(TOO_LONG, 0) : good;
    while (!r.number && at < n) {
        Common a;
        r = split(s + at, n - at, &a);
        if (r.number) break;
        o = put_field(put_field(put_field(o, at, ' '), a.kind, ' '), a.length, ' ');
        o = known(&a) ? put_field(o, answer_of(a.kind, s + at + 6, a.length - 6), '\n') : put_text(o, "skip\n");
        at += a.length;
    }
    if (r.number) o = put_field(put_text(put_field(o, at, ' '), "- - "), r.number, '\n');
    return put_field(put_text(o, "end "), at, '\n') - out;
}

/* ---- a session in pieces */

enum { WAITING = 1, MESSAGE, SKIPPED, REFUSED };
typedef struct { size_t held; Refusal standing; } Receiver;
typedef struct { int what; size_t missing; Common header; Refusal refusal; } Outcome;

static size_t least(size_t a, size_t b) { return a < b ? a : b; }

static void judge(const uint8_t *s, size_t n, Outcome *o) {
    Refusal r = split(s, n, &o->header);
    if (!r.number) {
        o->what = known(&o->header) ? MESSAGE : SKIPPED;
    } else if (r.number == CUT && r.missing <= BUFFER - n) {
        o->what = WAITING, o->missing = r.missing;
    } else {
        o->what = REFUSED, o->refusal = r.number == CUT ? refused(STREAM_TOO_BIG, 1) : r;
    }
}

/* How many bytes are copied before the next judgement; a first byte that is no version is the last one taken. */
static size_t next_run(size_t held, size_t missing, uint8_t first) {
    if (held >= 6) return missing;
    return held == 0 && first != 3 ? 1 : 6 - held;
}

static size_t refuse(Refusal r, Outcome *o) {
    o->what = REFUSED, o->refusal = r;
    return 0;
}

static size_t receive(uint8_t *buffer, size_t room, Receiver *state, const uint8_t *piece, size_t n, Outcome *o) {
    size_t held = state->held, took = 0;
    if (room != BUFFER) return refuse(refused(NO_ROOM, 0), o);
    if (n > LONGEST_PIECE) return refuse(refused(TOO_LONG, 0), o);
    if (state->standing.number) return refuse(state->standing, o);
    if (held > BUFFER) return refuse(refused(BAD_FIELD, 0), o);
    judge(buffer, held, o);
    if (o->what != WAITING) return refuse(refused(BAD_FIELD, 0), o);
    while (took < n && o->what == WAITING) {
        size_t run = least(next_run(held, o->missing, piece[took]), n - took);
        memcpy(buffer + held, piece + took, run);
        took += run, held += run;
        judge(buffer, held, o);
    }
    state->held = o->what == WAITING || o->what == REFUSED ? held : 0;
    if (o->what == REFUSED) state->standing = o->refusal;
    return took;
}

static uint64_t of_outcome(const Outcome *o) {
    if (o->what == REFUSED) return of_refusal(o->refusal);
    if (o->what == WAITING) return mix(WAITING, o->missing);
    uint64_t h = mix(with_view(o->what, (View){0, o->header.length}), o->header.version);
    return mix(mix(h, o->header.length), o->header.kind);
}

uint64_t c_session(uint8_t *buffer, size_t room, const uint8_t *stream, size_t n, const uint8_t *sized, size_t size) {
    (void)sized;
    Receiver state = {0, good};
    uint64_t h = 0;
    for (size_t at = 0, end = 0; at < n;) {
        if (at == end) end = at + least(size, n - at);
        Outcome o;
        size_t took = receive(buffer, room, &state, stream + at, end - at, &o);
        h = mix(h, mix(mix(mix(took, of_outcome(&o)), state.held), of_refusal(state.standing)));
        if (took == 0) break;
        at += took;
    }
    return h;
}

/* ---- writers: what was read is written again */

static int inside(size_t place, size_t length, size_t n) { return length <= n && place <= n - length; }

static Refusal room_for(int ok, size_t length, size_t room) {
    if (!ok) return refused(BAD_FIELD, 0);
    if (length > LIMIT) return refused(TOO_LONG, 0);
    return room < length ? refused(NO_ROOM, 0) : good;
}

static int has_bits(double time, uint32_t seconds, uint32_t microseconds) {
    double given = time_of(seconds, microseconds);
    return memcmp(&time, &given, 8) == 0;
}

static int all_zero(const uint8_t *p, size_t n) {
    for (size_t i = 0; i < n; i++) if (p[i]) return 0;
    return 1;
}

uint64_t c_write_common(const uint8_t *s, size_t n, uint8_t *o, size_t room) {
    Common a;
    READ(read_common(s, n, &a));
    READ(room_for(a.version == 3, 6, room));
    o[0] = a.version, o[5] = a.kind;
    put32(o + 1, a.length);
    return 6;
}

static int peer_writable(const Peer *a) {
    if (!has_bits(a->timestamp, a->seconds, a->microseconds)) return 0;
    if (a->type == LOC_RIB) return !a->ip.v6 && all_zero(a->ip.octets, 16);
    if (a->ip.v6 != ((a->flags & IPV6) != 0)) return 0;
    if (!a->ip.v6 && !all_zero(a->ip.octets, 12)) return 0;
    return !(a->flags & SHORT_AS) || a->asn < 65536;
}

uint64_t c_write_perpeer(const uint8_t *s, size_t n, uint8_t *o, size_t room) {
    Peer a;
    READ(read_peer(s, n, &a));
    READ(room_for(peer_writable(&a), 42, room));
    o[0] = a.type, o[1] = a.flags;
    put64(o + 2, a.distinguisher);
    memcpy(o + 10, a.ip.octets, 16);
    put32(o + 26, a.asn), put32(o + 30, a.id);
    put32(o + 34, a.seconds), put32(o + 38, a.microseconds);
    return 42;
}

static int openbmp_writable(const OpenBmp *a, size_t n) {
    if (a->major != 1 || a->minor != 7 || a->type != 12) return 0;
    if (!has_bits(a->timestamp, a->seconds, a->microseconds)) return 0;
    if (!a->ip.v6 && !all_zero(a->ip.octets + 4, 12)) return 0;
    if (a->admin.length > 65535 || !inside(a->admin.place, a->admin.length, n)) return 0;
    return a->group.length <= 65535 && inside(a->group.place, a->group.length, n);
}

uint64_t c_write_openbmp(const uint8_t *s, size_t n, uint8_t *o, size_t room) {
    OpenBmp a;
    READ(read_openbmp(s, n, &a));
    size_t admin = a.admin.length, group = a.group.length, length = 78 + admin + group;
    READ(room_for(openbmp_writable(&a, n), length, room));
    put32(o, 0x4F424D50);
    o[4] = 1, o[5] = 7, o[12] = a.ip.v6 ? 0xc0 : 0x80, o[13] = 12;
    put16(o + 6, a.header_len), put32(o + 8, a.msg_len);
    put32(o + 14, a.seconds), put32(o + 18, a.microseconds);
    memset(o + 22, 0, 16);
    put16(o + 38, admin);
    memcpy(o + 40, s + a.admin.place, admin);
    memset(o + 40 + admin, 0, 16);
    memcpy(o + 56 + admin, a.ip.octets, 16);
    put16(o + 72 + admin, group);
    memcpy(o + 74 + admin, s + a.group.place, group);
    put32(o + 74 + admin + group, 1);
    return length;
}

static int counter_writable(const Counter *c, size_t n) {
    if (c->length == 11) return c->safi < 256;
    if (c->afi || c->safi) return 0;
    if (c->length == 4) return c->value <= UINT32_MAX;
    return c->length == 8 || inside(c->value, c->length, n);
}

static void put_counter(uint8_t *o, const Counter *c, const uint8_t *s) {
    put16(o, c->kind), put16(o + 2, c->length);
    switch (c->length) {
    case 4: put32(o + 4, c->value); break;
    case 8: put64(o + 4, c->value); break;
    case 11: put16(o + 4, c->afi), o[6] = c->safi, put64(o + 7, c->value); break;
    default: memcpy(o + 4, s + c->value, c->length);
    }
}

uint64_t c_write_stats(const uint8_t *s, size_t n, uint8_t *o, size_t room) {
    Stats a;
    READ(read_stats(s, n, &a));
    int ok = a.count <= COUNTERS && a.stats_count == a.count;
    size_t length = 4;
    for (size_t i = 0; ok && i < a.count; i++) {
        ok = counter_writable(&a.counters[i], n);
        length += 4 + a.counters[i].length;
    }
    READ(room_for(ok, length, room));
    put32(o, a.stats_count);
    o += 4;
    for (size_t i = 0; i < a.count; i++) {
        put_counter(o, &a.counters[i], s);
        o += 4 + a.counters[i].length;
    }
    return length;
}

/* What a body asks of its TLVs beside views that lie inside. */
typedef struct { int codes; uint32_t last_code; uint16_t least; int empty_last; } Rule;

static int tlv_writable(const Tlv *t, Rule rule, size_t n, size_t after) {
    if (rule.codes && t->kind == 1) return t->length == 2 && t->number <= rule.last_code;
    if (rule.codes && t->kind > 1) return 0;
    if (t->length < rule.least || !inside(t->number, t->length, n)) return 0;
    return rule.empty_last || t->length > 0 || after > 0;
}

/* Writes the TLVs behind a front of so many bytes; the front is writable where ok. */
static uint64_t write_tlvs(const Tlvs *a, Rule rule, size_t front, int ok, const uint8_t *s, size_t n, uint8_t *o, size_t room) {
    size_t length = front;
    ok = ok && a->count <= TLVS;
    for (size_t i = 0; ok && i < a->count; i++) {
        ok = tlv_writable(&a->tlvs[i], rule, n, a->count - i - 1);
        length += 4 + a->tlvs[i].length;
    }
    READ(room_for(ok, length, room));
    o += front;
    for (size_t i = 0; i < a->count; i++) {
        const Tlv *t = &a->tlvs[i];
        put16(o, t->kind), put16(o + 2, t->length);
        if (rule.codes && t->kind == 1) put16(o + 4, t->number);
        else memcpy(o + 4, s + t->number, t->length);
        o += 4 + t->length;
    }
    return length;
}

#define TLV_WRITER(name, ...) \
    uint64_t c_write_##name(const uint8_t *s, size_t n, uint8_t *o, size_t room) { \
        Tlvs a; \
        READ(read_##name(s, n, &a)); \
        return write_tlvs(&a, (Rule){__VA_ARGS__}, 0, 1, s, n, o, room); \
    }

TLV_WRITER(initiation, 0, 0, 0, 0)
TLV_WRITER(termination, 1, 4, 0, 0)
TLV_WRITER(mirroring, 1, 1, 19, 1)

uint64_t c_write_monitoring(const uint8_t *s, size_t n, uint8_t *o, size_t room) {
    Monitoring a;
    READ(read_monitoring(s, n, 0, 0, &a));
    READ(room_for(a.message.length >= 19 && inside(a.message.place, a.message.length, n), a.message.length, room));
    memcpy(o, s + a.message.place, a.message.length);
    return a.message.length;
}

static int open_writable(View v, const uint8_t *s, size_t n) {
    return inside(v.place, v.length, n) && v.length >= 19 && be16(s + v.place + 16) == v.length;
}

uint64_t c_write_peerup(const uint8_t *s, size_t n, uint8_t *o, size_t room) {
    PeerUp a;
    READ(read_peer_up(s, n, 0, 0, &a));
    int ok = (a.local.v6 || all_zero(a.local.octets, 12)) && open_writable(a.sent, s, n) && open_writable(a.received, s, n);
    size_t front = ok ? 20 + a.sent.length + a.received.length : 0;
    uint64_t written = write_tlvs(&a.list, (Rule){0, 0, 0, 1}, front, ok, s, n, o, room);
    if (written >> 63) return written;
    memcpy(o, a.local.octets, 16);
    put16(o + 16, a.local_port), put16(o + 18, a.remote_port);
    memcpy(o + 20, s + a.sent.place, a.sent.length);
    memcpy(o + 20 + a.sent.length, s + a.received.place, a.received.length);
    return written;
}

uint64_t c_write_peerdown(const uint8_t *s, size_t n, uint8_t *o, size_t room) {
    PeerDown a;
    READ(read_peer_down(s, n, &a));
    View v = a.present ? a.data : (View){0, 0};
    READ(room_for(has_data(a.reason, v.length) == a.present && inside(v.place, v.length, n), 1 + v.length, room));
    o[0] = a.reason;
    memcpy(o + 1, s + v.place, v.length);
    return 1 + v.length;
}
