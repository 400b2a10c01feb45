/* The book runner of documents 01 and 02, plainly in C: standard input to standard output.
   It is what the program `book` is compared with (bench/README.md). */
#include <stdint.h>
#include <string.h>
#include <unistd.h>

typedef uint64_t u64;

enum {
    MEMBERS = 16, ASSETS = 8, DOMAINS = 8,
    INBOX_ROWS = 64, OUTBOX_ROWS = 32, HISTORY_ROWS = 1024,
    LAST_PAYEE = 65535, LAST_NONCE = 1024,
    LINE_BYTES = 120, SESSION_LINES = 100000, BUFFER_BYTES = 65536
};
static const u64 CEILING = 1000000000000000;
static const u64 LAST_NUMBER = 4294967295;

typedef enum {
    DONE, MALFORMED, BAD_BOOK, BAD_MEMBER, BAD_ASSET, BAD_DOMAIN, BAD_AMOUNT, BAD_PAYEE,
    SAME_MEMBER, OLD, GAP, OVER_CEILING, INBOX_FULL, NO_SUCH_DEPOSIT, SHORT, NOT_HOLDER,
    OUTBOX_FULL, HISTORY_FULL, NOTHING_WAITING, NOT_NEXT, TABLE_SMALL, NO_SUCH_PAYMENT
} Reply;

enum { CLAIM = 1, TRANSFER, WITHDRAWAL, GRANT };

typedef struct { u64 number, asset, amount, member; } Deposit;
typedef struct { u64 asset, amount, payee, nonce; } Payment;
typedef struct { u64 kind, asset, amount, first, second; } Record;
typedef struct { u64 member, asset, number, amount; } Lot;

/* The book. Members, assets and domains are numbered from 1; place 0 of each is not used. */
static u64 balance[MEMBERS + 1][ASSETS + 1];
static u64 holder[DOMAINS + 1];
static u64 lifetime[ASSETS + 1], settled[ASSETS + 1];
static u64 last_deposit, next_nonce;
static Deposit inbox[INBOX_ROWS];
static Payment outbox[OUTBOX_ROWS]; /* the first in_flight of them are in flight */
static Record history[HISTORY_ROWS];
static size_t unclaimed, payments, in_flight, records;

/* What a done send and a done trace answer. */
static Payment sent;
static Lot pieces[HISTORY_ROWS];
static size_t piece_count;

/* What a malformed line answers: the field where reading failed. The word is field 0. */
static size_t failed_field;

/* The lots of a replay. Those of one member and asset, in this order, are the member's line. */
static Lot lots[HISTORY_ROWS];
static size_t lot_count;

/* ---- limits ---- */

static int is_member(u64 m) { return m >= 1 && m <= MEMBERS; }
static int is_asset(u64 a) { return a >= 1 && a <= ASSETS; }
static int is_domain(u64 d) { return d >= 1 && d <= DOMAINS; }
static int is_amount(u64 x) { return x >= 1 && x <= CEILING; }
static int is_payee(u64 p) { return p >= 1 && p <= LAST_PAYEE; }

/* ---- the frame, tested whole at every call ---- */

static int desk_in_frame(void)
{
    if (unclaimed > INBOX_ROWS || payments > OUTBOX_ROWS || records > HISTORY_ROWS
        || in_flight > payments || last_deposit > LAST_NUMBER || next_nonce > LAST_NONCE)
        return 0;
    for (size_t m = 1; m <= MEMBERS; m++)
        for (size_t a = 1; a <= ASSETS; a++)
            if (balance[m][a] > CEILING)
                return 0;
    for (size_t a = 1; a <= ASSETS; a++)
        if (lifetime[a] > CEILING || settled[a] > CEILING)
            return 0;
    for (size_t d = 1; d <= DOMAINS; d++)
        if (!is_member(holder[d]))
            return 0;
    return 1;
}

static int inbox_in_frame(void)
{
    u64 before = 0;
    for (size_t i = 0; i < unclaimed; i++) {
        const Deposit *d = &inbox[i];
        if (d->number <= before || d->number > last_deposit || !is_asset(d->asset)
            || !is_amount(d->amount) || !is_member(d->member))
            return 0;
        before = d->number;
    }
    return 1;
}

static int outbox_in_frame(void)
{
    if (next_nonce < payments)
        return 0;
    u64 due = next_nonce - payments;
    for (size_t i = 0; i < payments; i++) {
        const Payment *p = &outbox[i];
        if (p->nonce != due + i || !is_asset(p->asset) || !is_amount(p->amount) || !is_payee(p->payee))
            return 0;
    }
    return 1;
}

static int in_frame(void)
{
    return desk_in_frame() && inbox_in_frame() && outbox_in_frame();
}

/* A replay of the records: what each leaves in the balances and with the holders. */
typedef struct {
    u64 balance[MEMBERS + 1][ASSETS + 1];
    u64 holder[DOMAINS + 1];
} Standing;

static int replay_record(Standing *s, const Record *r)
{
    if (r->kind == GRANT) {
        if (!is_domain(r->asset) || r->amount != 1 || !is_member(r->first) || !is_member(r->second)
            || r->first == r->second || s->holder[r->asset] != r->first)
            return 0;
        s->holder[r->asset] = r->second;
        return 1;
    }
    if (!is_asset(r->asset) || !is_amount(r->amount) || !is_member(r->first))
        return 0;
    u64 *first = &s->balance[r->first][r->asset];
    switch (r->kind) {
    case CLAIM:
        if (r->second < 1 || r->second > LAST_NUMBER)
            return 0;
        *first += r->amount;
        return 1;
    case TRANSFER:
        if (!is_member(r->second) || r->first == r->second || *first < r->amount)
            return 0;
        *first -= r->amount;
        s->balance[r->second][r->asset] += r->amount;
        return 1;
    case WITHDRAWAL:
        if (!is_payee(r->second) || *first < r->amount)
            return 0;
        *first -= r->amount;
        return 1;
    default:
        return 0;
    }
}

static int history_in_frame(void)
{
    Standing s = {0};
    for (size_t d = 1; d <= DOMAINS; d++)
        s.holder[d] = 1;
    for (size_t i = 0; i < records; i++)
        if (!replay_record(&s, &history[i]))
            return 0;
    return 1;
}

/* ---- the calls ---- */

static void record(u64 kind, u64 asset, u64 amount, u64 first, u64 second)
{
    history[records++] = (Record){kind, asset, amount, first, second};
}

static Reply deposit(u64 number, u64 asset, u64 amount, u64 member)
{
    if (!is_member(member))
        return BAD_MEMBER;
    if (!is_asset(asset))
        return BAD_ASSET;
    if (!is_amount(amount))
        return BAD_AMOUNT;
    if (number <= last_deposit)
        return OLD;
    if (number > last_deposit + 1 || number > LAST_NUMBER)
        return GAP;
    if (lifetime[asset] + amount > CEILING)
        return OVER_CEILING;
    if (unclaimed == INBOX_ROWS)
        return INBOX_FULL;
    inbox[unclaimed++] = (Deposit){number, asset, amount, member};
    last_deposit = number;
    lifetime[asset] += amount;
    return DONE;
}

static size_t find_deposit(u64 number, u64 asset, u64 amount, u64 member)
{
    size_t i = 0;
    while (i < unclaimed && !(inbox[i].number == number && inbox[i].asset == asset
                              && inbox[i].amount == amount && inbox[i].member == member))
        i++;
    return i;
}

static Reply claim(u64 member, u64 number, u64 asset, u64 amount)
{
    if (!is_member(member))
        return BAD_MEMBER;
    if (!is_asset(asset))
        return BAD_ASSET;
    if (!is_amount(amount))
        return BAD_AMOUNT;
    size_t at = find_deposit(number, asset, amount, member);
    if (at == unclaimed)
        return NO_SUCH_DEPOSIT;
    if (records == HISTORY_ROWS)
        return HISTORY_FULL;
    unclaimed--;
    memmove(&inbox[at], &inbox[at + 1], (unclaimed - at) * sizeof inbox[0]);
    memset(&inbox[unclaimed], 0, sizeof inbox[0]);
    balance[member][asset] += amount;
    record(CLAIM, asset, amount, member, number);
    return DONE;
}

static Reply transfer(u64 from, u64 to, u64 asset, u64 amount)
{
    if (!is_member(from) || !is_member(to))
        return BAD_MEMBER;
    if (!is_asset(asset))
        return BAD_ASSET;
    if (!is_amount(amount))
        return BAD_AMOUNT;
    if (from == to)
        return SAME_MEMBER;
    if (balance[from][asset] < amount)
        return SHORT;
    if (records == HISTORY_ROWS)
        return HISTORY_FULL;
    balance[from][asset] -= amount;
    balance[to][asset] += amount;
    record(TRANSFER, asset, amount, from, to);
    return DONE;
}

static Reply withdraw(u64 member, u64 asset, u64 amount, u64 payee)
{
    if (!is_member(member))
        return BAD_MEMBER;
    if (!is_asset(asset))
        return BAD_ASSET;
    if (!is_amount(amount))
        return BAD_AMOUNT;
    if (!is_payee(payee))
        return BAD_PAYEE;
    if (balance[member][asset] < amount)
        return SHORT;
    if (payments == OUTBOX_ROWS)
        return OUTBOX_FULL;
    if (records == HISTORY_ROWS)
        return HISTORY_FULL;
    balance[member][asset] -= amount;
    outbox[payments++] = (Payment){asset, amount, payee, next_nonce++};
    record(WITHDRAWAL, asset, amount, member, payee);
    return DONE;
}

static Reply send(void)
{
    if (in_flight == payments)
        return NOTHING_WAITING;
    sent = outbox[in_flight++];
    return DONE;
}

static Reply settle(u64 nonce)
{
    if (in_flight == 0 || outbox[0].nonce != nonce)
        return NOT_NEXT;
    settled[outbox[0].asset] += outbox[0].amount;
    payments--;
    in_flight--;
    memmove(&outbox[0], &outbox[1], payments * sizeof outbox[0]);
    memset(&outbox[payments], 0, sizeof outbox[0]);
    return DONE;
}

static Reply grant(u64 from, u64 to, u64 domain)
{
    if (!is_member(from) || !is_member(to))
        return BAD_MEMBER;
    if (!is_domain(domain))
        return BAD_DOMAIN;
    if (from == to)
        return SAME_MEMBER;
    if (holder[domain] != from)
        return NOT_HOLDER;
    if (records == HISTORY_ROWS)
        return HISTORY_FULL;
    holder[domain] = to;
    record(GRANT, domain, 1, from, to);
    return DONE;
}

static Reply sign(u64 member, u64 domain)
{
    if (!is_member(member))
        return BAD_MEMBER;
    if (!is_domain(domain))
        return BAD_DOMAIN;
    return holder[domain] == member ? DONE : NOT_HOLDER;
}

/* ---- the trace ---- */

/* Takes the amount from the front of a line into the pieces; what stays closes up. */
static void take(u64 member, u64 asset, u64 amount)
{
    size_t kept = 0, i = 0;
    piece_count = 0;
    for (; i < lot_count && amount > 0; i++) {
        Lot lot = lots[i];
        if (lot.member != member || lot.asset != asset) {
            lots[kept++] = lot;
            continue;
        }
        u64 part = lot.amount < amount ? lot.amount : amount;
        pieces[piece_count++] = (Lot){member, asset, lot.number, part};
        amount -= part;
        if (part < lot.amount) {
            lot.amount -= part;
            lots[kept++] = lot;
        }
    }
    if (kept < i)
        memmove(&lots[kept], &lots[i], (lot_count - i) * sizeof lots[0]);
    lot_count -= i - kept;
}

/* The pieces join the end of another member's line. */
static void join(u64 member)
{
    for (size_t i = 0; i < piece_count; i++) {
        lots[lot_count] = pieces[i];
        lots[lot_count++].member = member;
    }
}

static void replay_lots(const Record *r)
{
    switch (r->kind) {
    case CLAIM:
        lots[lot_count++] = (Lot){r->first, r->asset, r->second, r->amount};
        break;
    case TRANSFER:
        take(r->first, r->asset, r->amount);
        join(r->second);
        break;
    case WITHDRAWAL:
        take(r->first, r->asset, r->amount);
        break;
    }
}

/* The row of the withdrawal with so many before it, or past the last. */
static size_t find_payment(u64 nonce)
{
    size_t i = 0;
    for (; i < records; i++)
        if (history[i].kind == WITHDRAWAL && nonce-- == 0)
            break;
    return i;
}

static Reply trace(u64 nonce)
{
    if (!history_in_frame())
        return BAD_BOOK;
    size_t at = find_payment(nonce);
    if (at == records)
        return NO_SUCH_PAYMENT;
    lot_count = 0;
    for (size_t i = 0; i <= at; i++)
        replay_lots(&history[i]);
    memset(lots, 0, sizeof lots);
    return DONE;
}

/* ---- lines in ---- */

typedef enum {
    DEPOSIT_LINE, CLAIM_LINE, TRANSFER_LINE, WITHDRAW_LINE, SEND_LINE, SETTLE_LINE, GRANT_LINE,
    SIGN_LINE, TRACE_LINE, NO_LINE
} Form;

static const struct { const char *word; size_t bytes, fields; } forms[] = {
    {"deposit", 7, 4}, {"claim", 5, 4}, {"transfer", 8, 4}, {"withdraw", 8, 4}, {"send", 4, 0},
    {"settle", 6, 1}, {"grant", 5, 3}, {"sign", 4, 2}, {"trace", 5, 1},
};

static Form form_of(const char *word, size_t bytes)
{
    Form f = DEPOSIT_LINE;
    while (f < NO_LINE && !(forms[f].bytes == bytes && memcmp(forms[f].word, word, bytes) == 0))
        f++;
    return f;
}

/* Reads a number up to a tab or the end; the place after it, or none where there is no number. */
static const char *read_number(const char *at, const char *end, u64 *number)
{
    const char *from = at;
    u64 n = 0;
    for (; at < end && *at != '\t'; at++) {
        unsigned digit = (unsigned)*at - '0';
        if (digit > 9 || n > (UINT64_MAX - digit) / 10)
            return NULL;
        n = n * 10 + digit;
    }
    if (at == from || (*from == '0' && at - from > 1))
        return NULL;
    *number = n;
    return at;
}

static Form fails_at(size_t field)
{
    failed_field = field;
    return NO_LINE;
}

/* Of an over-long line the first 121 bytes are read. All fields of a call have at most 92 bytes, so a field
   fails among these, or there is one too many. */
static Form read_line(const char *at, const char *end, u64 field[4])
{
    if (end - at > LINE_BYTES)
        end = at + LINE_BYTES + 1;
    const char *word = at;
    while (at < end && *at != '\t')
        at++;
    Form f = form_of(word, (size_t)(at - word));
    if (f == NO_LINE)
        return fails_at(0);
    for (size_t i = 0; i < forms[f].fields; i++) {
        if (at == end)
            return fails_at(i + 1);
        at = read_number(at + 1, end, &field[i]);
        if (!at)
            return fails_at(i + 1);
    }
    return at == end ? f : fails_at(forms[f].fields + 1);
}

static Reply step(Form f, const u64 n[4])
{
    if (f == NO_LINE)
        return MALFORMED;
    if (!in_frame())
        return BAD_BOOK;
    switch (f) {
    case DEPOSIT_LINE: return deposit(n[0], n[1], n[2], n[3]);
    case CLAIM_LINE: return claim(n[0], n[1], n[2], n[3]);
    case TRANSFER_LINE: return transfer(n[0], n[1], n[2], n[3]);
    case WITHDRAW_LINE: return withdraw(n[0], n[1], n[2], n[3]);
    case SEND_LINE: return send();
    case SETTLE_LINE: return settle(n[0]);
    case GRANT_LINE: return grant(n[0], n[1], n[2]);
    case SIGN_LINE: return sign(n[0], n[1]);
    default: return trace(n[0]);
    }
}

/* ---- lines out ---- */

static char out[BUFFER_BYTES];
static size_t out_used;

static void flush(void)
{
    size_t done = 0;
    while (done < out_used) {
        ssize_t n = write(STDOUT_FILENO, out + done, out_used - done);
        if (n <= 0)
            _exit(1);
        done += (size_t)n;
    }
    out_used = 0;
}

/* Makes room for so many numbers, each with a tab or a line feed. */
static void room_for(size_t numbers)
{
    if (sizeof out - out_used < numbers * 21)
        flush();
}

static void put_number(u64 n, char after)
{
    char digits[20];
    size_t from = sizeof digits;
    do {
        digits[--from] = (char)('0' + n % 10);
        n /= 10;
    } while (n);
    memcpy(out + out_used, digits + from, sizeof digits - from);
    out_used += sizeof digits - from;
    out[out_used++] = after;
}

static void put_pieces(void)
{
    put_number(piece_count, '\t');
    for (size_t i = 0; i < piece_count; i++) {
        room_for(2);
        put_number(pieces[i].number, '\t');
        put_number(pieces[i].amount, '\t');
    }
}

static void put_sent(void)
{
    put_number(sent.nonce, '\t');
    put_number(sent.asset, '\t');
    put_number(sent.amount, '\t');
    put_number(sent.payee, '\t');
}

static void put_reply(u64 line, Reply r, Form f)
{
    room_for(6);
    put_number(line, '\t');
    put_number(r, '\t');
    if (r == MALFORMED)
        put_number(failed_field, '\t');
    if (r == DONE && f == SEND_LINE)
        put_sent();
    if (r == DONE && f == TRACE_LINE)
        put_pieces();
    out[out_used - 1] = '\n';
}

/* ---- the session ---- */

static char in[BUFFER_BYTES];
static u64 line_number, done, other;

static void count_reply(Reply r, Form f)
{
    put_reply(++line_number, r, f);
    if (r == DONE)
        done++;
    else
        other++;
}

/* Of a line that is not finished and all of whose fields read, their count with the word is told. */
static void answer_line(const char *line, const char *end, int finished)
{
    u64 field[4];
    Form f = read_line(line, end, field);
    if (!finished && f != NO_LINE)
        f = fails_at(forms[f].fields + 1);
    count_reply(step(f, field), f);
}

/* Answers the whole lines among the first so many bytes; how many bytes are left over. Of a line
   without end no more than 121 bytes are kept: no more are read. */
static size_t answer_lines(size_t bytes)
{
    const char *at = in, *end = in + bytes, *feed;
    while (line_number < SESSION_LINES && (feed = memchr(at, '\n', (size_t)(end - at)))) {
        answer_line(at, feed, 1);
        at = feed + 1;
    }
    size_t left = (size_t)(end - at);
    if (left > LINE_BYTES + 1)
        left = LINE_BYTES + 1;
    memmove(in, at, left);
    return left;
}

static void put_end(void)
{
    room_for(3);
    memcpy(out + out_used, "end\t", 4);
    out_used += 4;
    put_number(done, '\t');
    put_number(other, '\n');
}

int main(void)
{
    size_t held = 0;
    ssize_t n;
    for (size_t d = 1; d <= DOMAINS; d++)
        holder[d] = 1;
    while (line_number < SESSION_LINES && (n = read(STDIN_FILENO, in + held, sizeof in - held)) > 0) {
        held = answer_lines(held + (size_t)n);
        flush();
    }
    if (held > 0 && line_number < SESSION_LINES)
        answer_line(in, in + held, 0);
    put_end();
    flush();
    return 0;
}
