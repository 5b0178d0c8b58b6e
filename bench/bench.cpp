// The receiver's calls, and QuickFIX's parse of the same messages, timed in turn in one process. bench/run builds and runs it.
//   bench [ROUNDS [MILLISECONDS]]    how often each work is timed, and for how long each time
//   bench --works                    the names of the whole calls that are timed, a line each
//   bench --calls WORK CALLS         so many calls of one of them, counted from 0, and no more: for a counter of instructions (bench/run --count)
// Before anything is timed every call is made once and what it did is looked at: a work that is not what its name says ends the program with status 1.
#include <quickfix/Message.h>

#include <algorithm>
#include <chrono>
#include <cstdint>
#include <cstdio>
#include <cstdlib>
#include <cstring>
#include <functional>
#include <memory>
#include <string>
#include <vector>

using std::string;
using std::vector;

// ---- the proved functions: crates/bench. A slice is a pointer and a length, an array a pointer

// a row of the totals page
struct OrderRow {
    uint8_t id[31];
    uint32_t waiting;
};

extern "C" {
uint64_t bench_message(const uint8_t *ours, size_t n, const uint8_t *theirs, size_t k, uint32_t e, uint32_t fills, uint32_t orders, uint32_t entries,
                       const uint8_t *time, size_t time_len, const uint8_t *bytes, size_t bytes_len, uint8_t *book, uint8_t *reply, size_t reply_len,
                       uint8_t *note, size_t note_len);
uint64_t bench_acknowledge(const uint8_t *ours, size_t n, const uint8_t *theirs, size_t k, uint32_t fills, uint32_t orders, uint32_t entries, uint8_t *book,
                           uint32_t upto, uint8_t *note, size_t note_len);
uint64_t bench_page(uint32_t fills, uint32_t orders, uint32_t entries, const uint8_t *book, struct OrderRow *rows, size_t rows_len);
size_t bench_restart(uint8_t *book, const uint8_t *notes, size_t notes_len);
size_t bench_listing(const uint8_t *notes, size_t notes_len, uint8_t *book, uint8_t *out, size_t out_len);
size_t bench_find(const uint8_t *bytes, size_t bytes_len);
uint8_t bench_index(const uint8_t *body, size_t body_len, size_t *index);
uint32_t bench_judge(const uint8_t *ours, size_t n, const uint8_t *theirs, size_t k, uint32_t e, const uint8_t *body, size_t body_len);
uint8_t bench_admit(const uint8_t *book, size_t last, uint32_t fills, uint32_t orders, uint32_t entries, const uint8_t *slot, size_t slot_len);
}

// what a message came to, what the session says of a report, and what the book says of a fill, as the receiver numbers them
enum Became { REJECTED = 2, HEARD = 7, ECHOED = 8, ALREADY = 11, BOOKED = 12, ENTERED = 13 };
enum Said { TO_BE_BOOKED = 14 };
enum Admitted { NEW = 4 };

const int FILLS = 512;
const int ORDERS = 128;
const int ENTRIES = 256;
const size_t SLOT = 94, ROW = 12;
const size_t TAGS = 35;

static const uint8_t *bytes_of(const string &s) { return reinterpret_cast<const uint8_t *>(s.data()); }

static void give_up(const string &what) {
    printf("FAILED: %s\n", what.c_str());
    exit(1);
}

// ---- the messages

static string framed(string body) {
    std::replace(body.begin(), body.end(), '|', '\001');
    string m = "8=FIX.4.2\0019=" + std::to_string(body.size()) + "\001" + body;
    unsigned sum = 0;
    for (unsigned char c : m) sum += c;
    char trailer[8];
    snprintf(trailer, sizeof trailer, "10=%03u\001", sum % 256);
    return m + trailer;
}

static string head(const string &type, int number) {
    return "35=" + type + "|34=" + std::to_string(number) + "|49=SPHR|52=20261113-14:30:00.123|56=LJIP|";
}

// an identifier of 20 bytes; those of a day share their front
static string identifier(const string &front, int number) {
    char digits[16];
    snprintf(digits, sizeof digits, "%08d", number);
    return front + digits;
}

// execution `exec` of order `order`, with the tags that an option's report of the drop carries
static string report(int number, int exec, int order, const string &status = "1", const string &more = "", const string &price = "1.05") {
    return framed(head("8", number) + "57=DESK|1=HOUSE|6=0|11=A17|14=2|17=" + identifier("SPHR20261113", exec) + "|20=0|31=" + price + "|32=1|37=" +
                  identifier("ORD-20261113", order) + "|38=5|39=" + status + "|40=2|54=1|55=XYZ|60=20261113-14:30:00.120|150=1|151=3|" + more);
}

// a cancel of trade `trade`, with the tags that section 5.2 of the drop marks Y, and some of the others
static string cancel(int number, int trade) {
    return framed(head("UCC", number) + "57=DESK|20=1|9020=1|17=" + identifier("SPHR20261113", trade) + "|1003=" + identifier("TRD-20261113", trade) +
                  "|9021=0|37=" + identifier("ORD-20261113", trade % ORDERS) + "|11=A17|42=20261113-14:30:00.120|60=20261113-15:00:00.120|167=OPT|55=XYZ|54=1|31=1.05|32=1|");
}

// a report of that size: with fields of other tags, or with one long text, after its own
static string long_report(size_t size, bool fields) {
    string more;
    if (fields)
        for (int k = 0; report(FILLS, FILLS - 1, ORDERS - 1, "1", more).size() + 16 < size; k++)
            more += std::to_string(5000 + k % 4000) + "=" + std::to_string(k % 10) + "|";
    for (size_t text = 1; text < size; text++) {
        string m = report(FILLS, FILLS - 1, ORDERS - 1, "1", more + "58=" + string(text, 'x') + "|");
        if (m.size() == size) return m;
    }
    give_up("no report of " + std::to_string(size) + " bytes");
    return "";
}

// ---- a receiver that is on, and what is lent to it

static const uint8_t OURS[16] = {'L', 'J', 'I', 'P'};
static const uint8_t THEIRS[16] = {'S', 'P', 'H', 'R'};
static const string GIVEN_TIME = "20261113-14:30:00.125";

struct Receiver {
    vector<uint8_t> book, reply, note;
    int fills, orders, entries;

    Receiver() : book((FILLS + ENTRIES) * SLOT + ORDERS * ROW), reply(512), note(102), fills(0), orders(0), entries(0) {}

    // the call changes the lent memory alone, so that it can be made over and over: a fill is written behind the last one each time
    uint64_t message(const string &m, int e) {
        return bench_message(OURS, 4, THEIRS, 4, e, fills, orders, entries, bytes_of(GIVEN_TIME), GIVEN_TIME.size(), bytes_of(m), m.size(), book.data(),
                             reply.data(), reply.size(), note.data(), note.size());
    }

    // the same, looked at
    void expect(const string &name, const string &m, int e, int became, size_t reply_at_least, size_t note_len) {
        uint64_t word = message(m, e);
        size_t replied = word >> 12 & 4095, noted = word & 4095;
        bool answered = reply_at_least == 0 ? replied == 0 : replied >= reply_at_least;
        if ((int)(word >> 24) != became || !answered || noted != note_len)
            give_up(name + ": outcome " + std::to_string(word >> 24) + ", a reply of " + std::to_string(replied) + " bytes and a note of " +
                    std::to_string(noted));
    }
};

// A day of so many fills: 127 orders in turn, and the last of 512 fills is of order 128. The book is filled by the call itself; its notes are kept.
static int order_of(int fill) { return fill == FILLS - 1 ? ORDERS - 1 : fill % (ORDERS - 1); }

static Receiver day_of(int fills, string *notes = nullptr) {
    Receiver r;
    for (int i = 0; i < fills; i++) {
        r.expect("fill " + std::to_string(i + 1), report(i + 1, i, order_of(i)), i + 1, BOOKED, 0, 102);
        r.fills++;
        if (i < ORDERS - 1 || i == FILLS - 1) r.orders++;
        if (notes) notes->append(r.note.begin(), r.note.end());
    }
    return r;
}

// the same, and after them so many entries
static Receiver corrected(int fills, int entries) {
    Receiver r = day_of(fills);
    for (int i = 0; i < entries; i++) {
        r.expect("entry " + std::to_string(i + 1), cancel(FILLS, i), FILLS, ENTERED, 0, 101);
        r.entries++;
    }
    return r;
}

// so many S notes, E one up in each
static string leaves(size_t notes) {
    string s;
    for (uint32_t e = 2; e < notes + 2; e++) {
        const char note[9] = {'S', char(e >> 24), char(e >> 16), char(e >> 8), char(e), 0, 0, 0, 1};
        s.append(note, 9);
    }
    return s;
}

// ---- timing

static double now() { return std::chrono::duration<double>(std::chrono::steady_clock::now().time_since_epoch()).count(); }

// microseconds for one call, over at least that many seconds
static double timed(const std::function<void()> &work, double seconds) {
    long calls = 0, batch = 1;
    double began = now(), took;
    do {
        for (long i = 0; i < batch; i++) work();
        calls += batch;
        took = now() - began;
        if (took * 20 < seconds) batch *= 2;
    } while (took < seconds);
    return took / calls * 1e6;
}

struct Spread {
    vector<double> all;
    void add(double x) { all.push_back(x); }
    double at(double part) const {
        vector<double> v = all;
        std::sort(v.begin(), v.end());
        return v[size_t(part * (v.size() - 1) + 0.5)];
    }
    double median() const { return at(0.5); }
    // the median, and between which two the middle nine tenths lie
    string text() const {
        int decimals = median() < 10 ? 3 : median() < 100 ? 2 : 1;
        char s[64];
        snprintf(s, sizeof s, "%.*f (%.*f-%.*f)", decimals, median(), decimals, at(0.05), decimals, at(0.95));
        return s;
    }
};

struct Work {
    string name;
    std::function<void()> ours, peer;
    double bar;
    std::function<void()> besides;  // what ours does that is no work of the receiver's: timed by itself, and taken off
    Spread times, peer_times, ratios, besides_times, rest;
};

// the peer: a message from the bytes, and one field read
static std::function<void()> parse(const string &m, int tag) {
    auto read = [m, tag]() -> size_t {
        FIX::Message x(m, false);
        return tag == 35 ? x.getHeader().getField(tag).size() : x.getField(tag).size();
    };
    if (read() == 0) give_up("QuickFIX reads no field " + std::to_string(tag));
    return [read]() {
        volatile size_t n = read();
        (void)n;
    };
}

// each work in turn, ours and the peer's one after the other, which of them first by turns
static void run(vector<Work> &works, int rounds, double seconds) {
    for (int round = 0; round < rounds; round++)
        for (Work &w : works) {
            double peer = w.peer && round % 2 ? timed(w.peer, seconds) : 0;
            double ours = timed(w.ours, seconds);
            if (w.peer && round % 2 == 0) peer = timed(w.peer, seconds);
            w.times.add(ours);
            if (w.peer) w.peer_times.add(peer), w.ratios.add(ours / peer);
            if (w.besides) w.besides_times.add(timed(w.besides, seconds)), w.rest.add(ours - w.besides_times.all.back());
        }
}

static int width_of(const vector<Work> &works) {
    size_t width = 0;
    for (const Work &w : works) width = std::max(width, w.name.size());
    return (int)width;
}

static void print_ratios(const vector<Work> &works) {
    int width = width_of(works);
    printf("%-*s  %-20s  %-22s  %-20s  %s\n", width, "", "receiver, us", "QuickFIX parse, us", "ratio", "bar");
    for (const Work &w : works) {
        printf("%-*s  %-20s  %-22s  %-20s", width, w.name.c_str(), w.times.text().c_str(), w.peer_times.text().c_str(), w.ratios.text().c_str());
        if (w.bar > 0) {
            double over = w.ratios.median() - w.bar;
            printf("  at most %.2f: ", w.bar);
            if (over <= 0) printf("met");
            else printf("missed by %.3f", over);
        }
        printf("\n");
    }
}

static void print_times(const vector<Work> &works) {
    for (const Work &w : works) {
        printf("%-*s  %s", width_of(works), w.name.c_str(), (w.besides ? w.rest : w.times).text().c_str());
        if (w.besides) printf(", which is %s with the book laid anew less %s for that alone", w.times.text().c_str(), w.besides_times.text().c_str());
        printf("\n");
    }
}

// how the time grows from each size to the next, and what each one that was added costs
static void print_growth(const string &of, const vector<Work> &works, const vector<double> &sizes) {
    printf("%-10s  %-20s  %-14s  %s\n", of.c_str(), "us", "to the one before", "ns for each one added");
    for (size_t i = 0; i < works.size(); i++) {
        printf("%-10s  %-20s", works[i].name.c_str(), works[i].times.text().c_str());
        if (i > 0) {
            double t = works[i].times.median(), before = works[i - 1].times.median();
            printf("  %-17.2f  %.2f", t / before, (t - before) * 1e3 / (sizes[i] - sizes[i - 1]));
        }
        printf("\n");
    }
}

// ---- what is timed

struct Bench {
    int rounds;
    double seconds;
    string notes;
    Receiver full;
    vector<uint8_t> page;

    Bench(int rounds, double seconds) : rounds(rounds), seconds(seconds), full(day_of(FILLS, &notes)), page(65536) {}

    // the message call on m, in its turn, after it was looked at; each work has a receiver of its own
    std::function<void()> call(const string &name, Receiver r, const string &m, int e, int became, size_t reply_at_least, size_t note_len) {
        r.expect(name, m, e, became, reply_at_least, note_len);
        auto own = std::make_shared<Receiver>(r);
        return [own, m, e]() { own->message(m, e); };
    }
    std::function<void()> booking(const string &name, int fills, const string &m) { return call(name, day_of(fills), m, FILLS, BOOKED, 0, 102); }

    std::function<void()> restart(const string &notes) {
        auto own = std::make_shared<Receiver>();
        if (bench_restart(own->book.data(), bytes_of(notes), notes.size()) != notes.size()) give_up("a restart: a note is unlawful");
        return [own, notes]() { bench_restart(own->book.data(), bytes_of(notes), notes.size()); };
    }

    vector<Work> messages() {
        const string fresh = report(FILLS, FILLS - 1, ORDERS - 1), known = report(FILLS, FILLS - 1, ORDERS - 2);
        const string again = report(FILLS + 1, FILLS - 1, ORDERS - 1), oldest = report(FILLS + 1, 0, 0), beat = framed(head("0", FILLS + 1));
        const string test = framed(head("1", FILLS + 1) + "112=ARE-YOU-THERE-0513|"), wrong = report(FILLS, FILLS - 1, ORDERS - 1, "2");
        const string unformed = report(FILLS, FILLS - 1, ORDERS - 1, "1", "", "5.");
        const string fields = long_report(4096, true), text = long_report(4096, false), bust = cancel(FILLS, ENTRIES - 1);
        return {
            {"(a) report booked, 0 fills", booking("a", 0, fresh), parse(fresh, 17), 0.27},
            {"(a) report booked, 128 fills", booking("a", 128, known), parse(known, 17), 0},
            {"(a) report booked, 511 fills, of a new order", booking("a", 511, fresh), parse(fresh, 17), 0.6},
            {"(a) report booked, 511 fills, of a known order", booking("a", 511, known), parse(known, 17), 0.6},
            {"(b) report already booked, the newest of 512", call("b", full, again, FILLS + 1, ALREADY, 0, 9), parse(again, 17), 0},
            {"(b) report already booked, the oldest of 512", call("b", full, oldest, FILLS + 1, ALREADY, 0, 9), parse(oldest, 17), 0},
            {"(c) Heartbeat", call("c", full, beat, FILLS + 1, HEARD, 0, 9), parse(beat, 35), 0.5},
            {"(d) Test Request, answered", call("d", full, test, FILLS + 1, ECHOED, 60, 9), parse(test, 112), 0},
            {"(e) report rejected by its last rule", call("e", day_of(511), wrong, FILLS, REJECTED, 60, 9), parse(wrong, 17), 0},
            {"    report rejected for the form of its price", call("e", day_of(511), unformed, FILLS, REJECTED, 60, 9), parse(unformed, 17), 0},
            {"(f) report of 4,096 bytes, " + std::to_string(std::count(fields.begin(), fields.end(), '\001')) + " fields", booking("f", 0, fields),
             parse(fields, 17), 0.15},
            {"    report of 4,096 bytes, one long text", booking("f", 0, text), parse(text, 17), 0},
            {"(i) correction entered, 0 fills", call("i", corrected(0, 0), bust, FILLS, ENTERED, 0, 101), parse(bust, 17), 0},
            {"(i) correction entered, 511 fills and 255 entries", call("i", corrected(511, ENTRIES - 1), bust, FILLS, ENTERED, 0, 101), parse(bust, 17), 0},
        };
    }

    std::function<void()> listed(const string &notes) {
        auto own = std::make_shared<Receiver>();
        auto list = [this, own, notes]() { return bench_listing(bytes_of(notes), notes.size(), own->book.data(), page.data(), page.size()); };
        size_t lines = 0;
        for (size_t at = 0, n = list(); at < n; at++) lines += page[at] == '\n';
        if (lines != 1 + notes.size() / 102) give_up("the listing has " + std::to_string(lines) + " lines");
        return [list]() { list(); };
    }

    // the page of 128 orders: each row has its order's name
    std::function<void()> paged() {
        auto rows = std::make_shared<vector<OrderRow>>(ORDERS);
        auto page = [this, rows]() { return bench_page(FILLS, ORDERS, 0, full.book.data(), rows->data(), rows->size()); };
        memset(rows->data(), 238, ORDERS * sizeof(OrderRow));
        if (sizeof(OrderRow) != 36 || page() != ((uint64_t)ORDERS << 32 | FILLS)) give_up("the page does not show 128 orders, and a contract for each fill");
        uint64_t sum = 0;
        for (int i = 0; i < ORDERS; i++) {
            const string name = identifier("ORD-20261113", i);
            if ((*rows)[i].id[0] != name.size() || memcmp((*rows)[i].id + 1, name.data(), name.size()) != 0) give_up("row " + std::to_string(i) + " of the page");
            sum += (*rows)[i].waiting;
        }
        if (sum != FILLS) give_up("the rows of the page do not add up to the day's sum");
        return [page]() { page(); };
    }

    // All fills of the day acknowledged at once. The call may change the lent book, and so each call is given the day's book again.
    Work acknowledged() {
        auto own = std::make_shared<Receiver>(full);
        auto lay = [this, own]() { memcpy(own->book.data(), full.book.data(), full.book.size()); };
        auto ack = [own]() {
            return bench_acknowledge(OURS, 4, THEIRS, 4, FILLS, ORDERS, 0, own->book.data(), FILLS, own->note.data(), own->note.size());
        };
        const uint8_t note[5] = {'K', 0, 0, FILLS >> 8, FILLS & 255};
        if (ack() != sizeof note || memcmp(own->note.data(), note, sizeof note) != 0) give_up("the fills are not acknowledged");
        return {"(k) acknowledge of 512 fills at once", [lay, ack]() { lay(), ack(); }, nullptr, 0, lay};
    }

    vector<Work> starts() {
        return {
            {"(g) restart, 512 fills, 52,224 bytes", restart(notes)},
            {"(g) restart, 7,281 S notes, 65,529 bytes", restart(leaves(7281))},
            {"(h) listing of 512 fills", listed(notes)},
            {"(j) page of 128 orders", paged()},
            acknowledged(),
        };
    }

    // the whole calls, without their peer
    vector<Work> both() {
        vector<Work> works = messages();
        for (const Work &w : starts()) works.push_back(w);
        return works;
    }

    void whole_calls() {
        vector<Work> beside_peer = messages(), alone = starts();
        printf("a report has %zu bytes; medians of %d rounds, in brackets where nine of ten lie\n\n", report(FILLS, FILLS - 1, ORDERS - 1).size(), rounds);
        run(beside_peer, rounds, seconds);
        print_ratios(beside_peer);
        run(alone, rounds, seconds);
        printf("\nBeside no peer, us\n");
        print_times(alone);
    }

    // the stages of (a) that can be called by themselves
    void stages() {
        const string m = report(FILLS, FILLS - 1, ORDERS - 1), body = m.substr(16, m.size() - 23);
        const vector<uint8_t> slot(full.book.begin() + (FILLS - 1) * SLOT, full.book.begin() + FILLS * SLOT);
        size_t cells[3 * TAGS];
        auto find = [&]() { return bench_find(bytes_of(m), m.size()); };
        auto index = [&]() { return bench_index(bytes_of(body), body.size(), cells); };
        auto judge = [&]() { return bench_judge(OURS, 4, THEIRS, 4, FILLS, bytes_of(body), body.size()); };
        auto admit = [&](int fills) { return bench_admit(full.book.data(), fills, fills, ORDERS - 1, 0, slot.data(), slot.size()); };
        if (find() != m.size() || index() != 0 || body.substr(cells[14], cells[TAGS + 14]) != identifier("SPHR20261113", FILLS - 1) || cells[2 * TAGS + 14] != 1 ||
            judge() != TO_BE_BOOKED || admit(FILLS - 1) != NEW)
            give_up("a stage of the report's call");
        vector<Work> works = {
            {"found in the bytes", [&]() { find(); }},
            {"its body indexed", [&]() { index(); }},
            {"indexed, read and judged by the session and the table", [&]() { judge(); }},
            {"its fill among 0 fills", [&]() { admit(0); }},
            {"its fill among 511 fills", [&]() { admit(FILLS - 1); }},
        };
        run(works, rounds, seconds);
        printf("\nStages of (a), us\n");
        print_times(works);
    }

    // one work at several sizes
    void growth(const string &title, const string &of, const vector<int> &sizes, const std::function<std::function<void()>(int)> &work) {
        vector<Work> works;
        vector<double> units;
        for (int size : sizes) works.push_back({std::to_string(size), work(size)}), units.push_back(size);
        run(works, rounds, seconds);
        printf("\n%s\n", title.c_str());
        print_growth(of, works, units);
    }

    void growths() {
        const string fresh = report(FILLS, FILLS - 1, ORDERS - 1);
        growth("(a) with the fills in the book, of a new order", "fills", {0, 64, 128, 256, 511}, [&](int n) { return booking("a", n, fresh); });
        growth("(f) with the bytes of the message", "bytes", {512, 1024, 2048, 4096}, [&](int n) { return booking("f", 0, long_report(n, true)); });
        growth("a restart with the F notes", "F notes", {64, 128, 256, 512}, [&](int n) { return restart(notes.substr(0, n * 102)); });
        growth("a restart with the S notes", "S notes", {910, 1820, 3640, 7281}, [&](int n) { return restart(leaves(n)); });
        growth("the listing with the fills", "fills", {64, 128, 256, 512}, [&](int n) { return listed(notes.substr(0, n * 102)); });
    }
};

// one of the whole calls, or their names
static int counted(const vector<string> &words) {
    const vector<Work> works = Bench(1, 0).both();
    if (words[0] == "--works") {
        for (const Work &w : works) printf("%s%s\n", w.name.c_str(), w.besides ? ", and the book laid anew" : "");
        return 0;
    }
    size_t work = words.size() == 3 ? strtoul(words[1].c_str(), nullptr, 10) : works.size();
    if (words[0] != "--calls" || work >= works.size()) give_up("usage: bench --works, or bench --calls WORK CALLS with a WORK from 0");
    for (long i = atol(words[2].c_str()); i > 0; i--) works[work].ours();
    return 0;
}

int main(int argc, char **argv) {
    if (argc > 1 && argv[1][0] == '-') return counted(vector<string>(argv + 1, argv + argc));
    int rounds = argc > 1 ? atoi(argv[1]) : 15;
    double milliseconds = argc > 2 ? atof(argv[2]) : 15;
    if (rounds < 1 || milliseconds <= 0) give_up("usage: bench [ROUNDS [MILLISECONDS]], both above 0");
    Bench bench(rounds, milliseconds / 1e3);
    bench.whole_calls();
    bench.stages();
    bench.growths();
    return 0;
}
