// The header from C++: a station and an observer, their buffers sized when the program runs, and what the header's own functions do
// at their edges. Exit status 0 where all is as it should be.
#include <cstdio>
#include <cstdlib>
#include <cstring>
#include <set>
#include <string>
#include <vector>

#include <yarngravel.h>

namespace {

const uint32_t n = 3, epsilon = 2, delta = 4, modulus = YARNGRAVEL_LEAST_MODULUS(2, 4), own = 2;

void expect(bool holds, const char *what) {
    if (holds) return;
    std::fprintf(stderr, "plus: %s does not hold\n", what);
    std::exit(1);
}

void try_version() {
    const unsigned version = YARNGRAVEL_VERSION;
    const std::string text =
        std::to_string(version >> 16) + "." + std::to_string(version >> 8 & 255) + "." + std::to_string(version & 255);
    expect(text == YARNGRAVEL_VERSION_TEXT, "that the header's version is its text");
    expect(yarngravel_version() == version, "that the archive's version is the header's");
}

// each number and each mend has a text of its own, and no other number has one
void try_texts() {
    std::set<std::string> numbers, mends;
    for (unsigned k = 0; k < 256; k++) {
        const bool is_number = k <= YARNGRAVEL_BAD_BUFFERS || (k >= YARNGRAVEL_BAD_FORM && k <= YARNGRAVEL_REPEAT) ||
                               k == YARNGRAVEL_TOO_MANY || k == YARNGRAVEL_NOT_WIDER ||
                               (k >= YARNGRAVEL_BAD_PRESS && k <= YARNGRAVEL_FULL_LEDGER);
        expect((yarngravel_number_text(k) != std::string(yarngravel_number_text(255))) == is_number, "a number's text");
        expect((yarngravel_mend_text(k) != std::string(yarngravel_mend_text(255))) == (k < 4), "a mend's text");
        numbers.insert(yarngravel_number_text(k));
        mends.insert(yarngravel_mend_text(k));
    }
    expect(numbers.size() == 19 + 1 && mends.size() == 4 + 1, "that no two numbers have the same text");
}

// fresh tables are as the header says, and a refusal leaves what was there
void try_fresh() {
    std::vector<uint8_t> tables(YARNGRAVEL_TABLES, 7), wanted(YARNGRAVEL_TABLES, 0);
    const std::vector<uint8_t> given = tables;
    expect(yarngravel_fresh(n, epsilon, delta, modulus - 1, own, 0, tables.data()) == YARNGRAVEL_BAD_SETUP, "1 for a small B");
    expect(yarngravel_fresh(n, epsilon, delta, modulus, n, modulus, tables.data()) == YARNGRAVEL_BAD_SETUP, "1 before 2");
    expect(yarngravel_fresh(n, epsilon, delta, modulus, own, modulus, tables.data()) == YARNGRAVEL_BAD_CLOCK, "2 for a clock of B");
    expect(tables == given, "that a refused start changes nothing");
    expect(yarngravel_fresh(n, epsilon, delta, 65535, own, 65534, tables.data()) == 0, "a start at the largest clock");
    expect(yarngravel_last_clock(tables.data()) == 65534, "that fresh tables have their clock");
    wanted[0] = 0xfe;
    wanted[1] = 0xff;
    wanted[3 + epsilon] = 1;
    expect(tables == wanted, "the form of fresh tables");
}

// an observer's last clock is its two bytes, low first, whatever own number there would be; 65541 is no clock, and not 5
void try_fresh_last() {
    uint8_t last[YARNGRAVEL_LAST] = {7, 7};
    expect(yarngravel_fresh_last(n, epsilon, delta, modulus - 1, 0, last) == YARNGRAVEL_BAD_SETUP, "1 for an observer's small B");
    expect(yarngravel_fresh_last(n, 0, delta, modulus, modulus, last) == YARNGRAVEL_BAD_SETUP, "1 before 2 of an observer");
    expect(yarngravel_fresh_last(n, epsilon, delta, modulus, modulus, last) == YARNGRAVEL_BAD_CLOCK, "2 for a last clock of B");
    expect(yarngravel_fresh_last(n, epsilon, delta, 65535, 65536 + 5, last) == YARNGRAVEL_BAD_CLOCK, "2 for a last clock of 65541");
    expect(last[0] == 7 && last[1] == 7, "that a refused start of an observer changes nothing");
    expect(yarngravel_fresh_last(n, epsilon, delta, 65535, 65534, last) == 0, "an observer's start at the largest clock");
    expect(last[0] == 0xfe && last[1] == 0xff && yarngravel_last_clock(last) == 65534, "an observer's last clock");
}

// an engine's fresh tables are as the header says, up to the last clock before 2^63
void try_long_fresh() {
    std::vector<uint8_t> tables(YARNGRAVEL_LONG_TABLES, 7), wanted(YARNGRAVEL_LONG_TABLES, 0);
    const std::vector<uint8_t> given = tables;
    const uint64_t past = YARNGRAVEL_LONG_CLOCKS;
    expect(yarngravel_long_fresh(n, 17, delta, own, 0, tables.data()) == YARNGRAVEL_BAD_SETUP, "1 for an epsilon of 17");
    expect(yarngravel_long_fresh(n, epsilon, delta, n, past, tables.data()) == YARNGRAVEL_BAD_SETUP, "1 before 2 of an engine");
    expect(yarngravel_long_fresh(n, epsilon, delta, own, past, tables.data()) == YARNGRAVEL_BAD_CLOCK, "2 for a start at 2^63");
    expect(yarngravel_long_fresh(n, epsilon, delta, own, UINT64_MAX, tables.data()) == YARNGRAVEL_BAD_CLOCK, "2 for a start past it");
    expect(tables == given, "that an engine's refused start changes nothing");
    expect(yarngravel_long_fresh(n, epsilon, delta, own, past - 2, tables.data()) == 0, "an engine's start");
    for (unsigned i = 0; i < 8; i++) wanted[i] = i == 0 ? 0xfe : i == 7 ? 0x7f : 0xff;
    wanted[9 + epsilon] = 1;
    expect(tables == wanted && yarngravel_long_last_clock(tables.data()) == past - 2, "the form of an engine's fresh tables");
}

// a charge is as the header says: the ticket's bytes, the answers at the limits, and every byte of the ledger
void try_charges() {
    const size_t size = YARNGRAVEL_PRESS;
    uint8_t ticket[YARNGRAVEL_TICKET + 1] = {0}, other[] = {9, 3};
    std::vector<uint8_t> ledger(YARNGRAVEL_LEDGER, 0), wanted(ledger);
    yarngravel_press(ticket, 0x04030201, 487, 0x0605);
    const uint8_t press[] = {9, 2, 1, 2, 3, 4, 0xe7, 1, 5, 6};
    expect(std::memcmp(ticket, press, sizeof press) == 0, "the form of a press ticket");
    const auto charge = [&](uint32_t rate, size_t len) { return yarngravel_charge(rate, ticket, len, ledger.data(), ledger.size()); };
    expect(charge(YARNGRAVEL_RATE + 1, 33) == YARNGRAVEL_BAD_SETUP, "1 for a rate of 60001, before 4");
    expect(charge(1250, 9) == YARNGRAVEL_BAD_PRESS, "20 for a ticket of nine bytes");
    expect(charge(1250, 1) == 0, "that a ticket of one byte passes");
    expect(yarngravel_charge(1250, other, sizeof other, ledger.data(), ledger.size()) == 0, "that another kind passes");
    expect(yarngravel_charge(1250, ticket, size, ledger.data(), ledger.size() - 1) == YARNGRAVEL_BAD_SHELF, "3 for a short ledger");
    expect(ledger == wanted, "that a pass or a refusal changes no byte");
    const uint64_t charged = charge(1250, size);
    expect(yarngravel_number(charged) == 0 && yarngravel_entered(charged) && yarngravel_cents(charged) == 6088, "6088 for 487 at 1250");
    const uint8_t start[] = {1, 0, 1, 2, 3, 4, 5, 6, 0xc8, 0x17, 0, 0};
    std::memcpy(wanted.data(), start, sizeof start);
    expect(ledger == wanted, "what a charge writes");
    expect(charge(0, size) == YARNGRAVEL_CHARGED, "21 for the same bale");
    yarngravel_press(ticket, 7, 1000, 0x0605);
    expect(charge(0, size) == 0x100, "that a charge of 0 is a charge");
    yarngravel_press(ticket, 8, 1000, 0x0605);
    expect(yarngravel_cents(charge(YARNGRAVEL_RATE, size)) == 600000, "the largest charge");
    expect(yarngravel_total_cents(yarngravel_total(0x0605, ledger.data(), ledger.size())) == 606088, "a grower's total");
    expect(yarngravel_total(5, ledger.data(), ledger.size()) == 0, "another grower's");
    expect(yarngravel_total(5, ledger.data(), 0) == YARNGRAVEL_BAD_SHELF, "3 for a total of no ledger");
    ledger[0] = ledger[1] = 0xff;
    yarngravel_press(ticket, 9, 1, 1);
    expect(charge(1, size) == YARNGRAVEL_FULL_LEDGER, "22 where 512 or more are counted");
}

// a bundle takes 255 frames of at most 255 bytes each, and no byte more than there is room for
void try_bundle() {
    std::vector<uint8_t> bundle(1 + 255 * 2, 9), frame(256, 5), none;
    size_t len = yarngravel_bundle_start(bundle.data());
    expect(len == 1 && bundle[0] == 0, "an empty bundle");
    expect(!yarngravel_bundle_add(bundle.data(), 4, &len, frame.data(), 3), "that there is no room for three bytes in four");
    expect(!yarngravel_bundle_add(bundle.data(), bundle.size(), &len, frame.data(), 256), "that 256 bytes are no entry");
    expect(len == 1 && bundle[0] == 0 && bundle[1] == 9, "that what does not fit changes nothing");
    expect(yarngravel_bundle_add(bundle.data(), 4, &len, frame.data(), 2) && len == 4, "that the last byte of the room is used");
    expect(!yarngravel_bundle_add(bundle.data(), 4, &len, none.data(), 0), "that a full buffer has no room for an empty entry");
    len = yarngravel_bundle_start(bundle.data());
    for (unsigned k = 0; k < 255; k++)
        expect(yarngravel_bundle_add(bundle.data(), bundle.size(), &len, frame.data(), 1), "255 frames");
    expect(len == bundle.size() && !yarngravel_bundle_add(bundle.data(), 1000, &len, none.data(), 0), "that 256 are too many");
}

void try_sizes() {
    expect(yarngravel_frame_size(16) == 71 && yarngravel_frame_size(epsilon) == YARNGRAVEL_FRAME(2), "a frame's size");
    expect(yarngravel_shelf_size(n, epsilon, delta) == YARNGRAVEL_SHELF(3, 2, 4), "a shelf's size");
    expect(yarngravel_shelf_size(16, 16, 64) == 127234, "the largest shelf's size");
    expect(yarngravel_bundle_size(16, 255) == 1 + 255 * 72 && yarngravel_bundle_size(16, 0) == 1, "a bundle's size");
    expect(yarngravel_text_size(255) == 255 * YARNGRAVEL_LINE, "a text's size");
    expect(yarngravel_long_frame_size(16) == 77 && yarngravel_long_frame_size(epsilon) == YARNGRAVEL_LONG_FRAME(2), "of an engine");
    expect(yarngravel_long_shelf_size(16) == 4930 && yarngravel_long_shelf_size(2) == YARNGRAVEL_LONG_SHELF(2), "its shelf's size");
    expect(yarngravel_long_bundle_size(16, 255) == 1 + 255 * 78 && yarngravel_long_bundle_size(2, 0) == 1, "its bundle's size");
}

// an engine's frame of a station that is fresh at a clock
std::vector<uint8_t> long_frame(uint32_t stations, uint32_t station, uint64_t clock) {
    uint8_t tables[YARNGRAVEL_LONG_TABLES], stamp[YARNGRAVEL_LONG_TABLES];
    std::vector<uint8_t> frame(yarngravel_long_frame_size(epsilon));
    const uint8_t ticket[] = {'x', 'y'};
    expect(yarngravel_long_fresh(stations, epsilon, delta, 0, clock, tables) == 0, "the start of an engine that sends");
    const uint64_t wrote = yarngravel_long_write(stations, epsilon, delta, 0, station, tables, ticket, sizeof ticket, frame.data(),
                                                 frame.size());
    expect(yarngravel_number(wrote) == 0 && yarngravel_written(wrote) == 13 + 2 * epsilon + 2, "the length of an engine's frame");
    frame.resize(yarngravel_written(wrote));
    expect(yarngravel_long_frame_len(epsilon, frame.data()) == frame.size(), "its length at a place");
    const uint64_t read = yarngravel_long_read(stations, epsilon, delta, 0, frame.data(), frame.size(), stamp);
    expect(yarngravel_number(read) == 0 && yarngravel_station(read) == station && yarngravel_ticket_len(read) == 2, "its reading");
    expect(yarngravel_ticket_at(read) == frame.size() - 2 && !std::memcmp(stamp, tables, sizeof stamp), "its stamp");
    return frame;
}

// an engine hears 64 messages of 16 stations, one of them twice, and one more; and clocks from 2^63 up are none
void try_engine() {
    const uint32_t all = 16;
    const uint64_t clock = YARNGRAVEL_LONG_CLOCKS - 1;
    uint8_t tables[YARNGRAVEL_LONG_TABLES], verdicts[YARNGRAVEL_VERDICTS];
    std::vector<uint8_t> shelf(yarngravel_long_shelf_size(epsilon)), handout(shelf.size());
    std::vector<uint8_t> outgoing(yarngravel_long_frame_size(epsilon)), bundle(yarngravel_long_bundle_size(epsilon, 66));
    size_t len = yarngravel_bundle_start(bundle.data());
    for (uint32_t k = 0; k < 66; k++) { // the 64th again, which is no 65th, and then another one
        const uint32_t which = k < 64 ? k : k == 64 ? 63 : 64;
        const std::vector<uint8_t> frame = long_frame(all, which % all, clock - delta - epsilon + which / all);
        expect(yarngravel_bundle_add(bundle.data(), bundle.size(), &len, frame.data(), frame.size()), "room for a frame");
    }
    expect(yarngravel_long_fresh(all, epsilon, delta, 0, clock - 1, tables) == 0, "an engine's start before the last clock");
    const auto tick = [&](uint64_t at) {
        return yarngravel_long_tick(all, epsilon, delta, 0, at, tables, shelf.data(), shelf.size(), bundle.data(), len, false, nullptr,
                                    0, outgoing.data(), outgoing.size(), verdicts, sizeof verdicts, handout.data(), handout.size());
    };
    expect(tick(YARNGRAVEL_LONG_CLOCKS) == YARNGRAVEL_BAD_CLOCK, "2 for a clock of 2^63");
    expect(yarngravel_long_last_clock(tables) == clock - 1, "that a refused call changes nothing");
    const uint64_t answer = tick(clock);
    expect(yarngravel_number(answer) == 0 && yarngravel_mend(answer) == 0, "a tick at the last clock");
    expect(yarngravel_taken(answer) == YARNGRAVEL_LONG_HELD && yarngravel_gave(answer) == all, "what it takes and hands out");
    expect(verdicts[64] == YARNGRAVEL_REPEAT && verdicts[65] == YARNGRAVEL_TOO_MANY, "16, and 18 for a 65th message");
    unsigned station = 0;
    yarngravel_walk walk = yarngravel_walk_of(answer, handout.data());
    while (yarngravel_long_walk_next(&walk, epsilon)) expect(walk.frame[1] == station++, "the order of stations");
    expect(station == all, "that all stations are shown");
    uint8_t frame[77];
    std::memset(tables, 0, 7); // r is 2^63
    tables[7] = 0x80;
    expect(yarngravel_long_write(all, epsilon, delta, 0, 0, tables, nullptr, 0, frame, sizeof frame) == YARNGRAVEL_BAD_RANGE,
           "11 for an r of 2^63");
}

// two frames of one clock, which differ in the ticket and in the count at that clock
void try_frames() {
    std::vector<uint8_t> frames[2], tables(YARNGRAVEL_TABLES), stamp(YARNGRAVEL_TABLES);
    const uint32_t clock = 3;
    for (uint8_t k = 0; k < 2; k++) {
        const std::vector<uint8_t> ticket(YARNGRAVEL_TICKET - k, 'x');
        frames[k].resize(yarngravel_frame_size(epsilon));
        expect(yarngravel_fresh(n, epsilon, delta, modulus, own, clock, tables.data()) == 0, "a start");
        tables[3 + epsilon] = static_cast<uint8_t>(1 + k);
        const uint64_t wrote = yarngravel_write(n, epsilon, delta, modulus, own, k, tables.data(), ticket.data(), ticket.size(),
                                                frames[k].data(), frames[k].size());
        expect(yarngravel_number(wrote) == 0 && yarngravel_written(wrote) == frames[k].size() - k, "the length of what is written");
        frames[k].resize(yarngravel_written(wrote));
        expect(yarngravel_frame_len(epsilon, frames[k].data()) == frames[k].size(), "the length of a frame at a place");
        const uint64_t read =
            yarngravel_read(n, epsilon, delta, modulus, own, frames[k].data(), frames[k].size(), stamp.data());
        expect(yarngravel_station(read) == k && yarngravel_ticket_len(read) == ticket.size() && stamp == tables, "what is read");
    }
    const uint64_t compared = yarngravel_compare(n, epsilon, delta, modulus, own, clock, frames[0].data(), frames[0].size(),
                                                 frames[1].data(), frames[1].size());
    expect(yarngravel_number(compared) == 0 && yarngravel_order(compared) == 0, "that the first comes first");
    expect(yarngravel_reason(compared) == YARNGRAVEL_BY_COUNT && yarngravel_count_clock(compared) == clock, "that its count decides");
}

// a setup with both pairs: what is asked of it, its sizes, and when it may be taken up and left
void try_both_pairs() {
    const uint64_t change = 1000;
    yarngravel_setup setup = {n, epsilon, delta, 65, own, 4, 9, 0, 0};
    std::vector<uint8_t> tables(YARNGRAVEL_TABLES, 7), wanted(YARNGRAVEL_TABLES, 0);
    const auto fresh = [&](uint32_t clock) { return yarngravel_fresh_in(&setup, clock, tables.data()); };
    yarngravel_set_change(&setup, change - 1, change);
    expect(setup.change == 25 && setup.marked == 0, "V modulo B, and no mark before V");
    expect(fresh(24) == 0 && tables[3 + epsilon] == 1, "narrow tables before V");
    yarngravel_set_change(&setup, change, change);
    wanted[0] = 25;
    wanted[3 + 4] = 1;
    expect(setup.marked == 1 && fresh(25) == 0 && tables == wanted, "wide tables from V on");
    setup.wider_epsilon = 1;
    expect(fresh(65) == YARNGRAVEL_NOT_WIDER && tables == wanted, "19, before 2, which changes nothing");
    setup.change = 65;
    expect(fresh(65) == YARNGRAVEL_BAD_SETUP, "1, before 19, for a V of B");
    setup.change = 25;
    setup.wider_epsilon = 4;
    setup.marked = 2;
    expect(fresh(25) == YARNGRAVEL_BAD_SETUP, "1 for a mark of 2");
    expect(yarngravel_frame_size_in(&setup) == YARNGRAVEL_FRAME(4) && yarngravel_bundle_size_in(&setup, 2) == YARNGRAVEL_BUNDLE(4, 2) &&
               yarngravel_shelf_size_in(&setup) == YARNGRAVEL_SHELF(3, 4, 9), "sizes by the wider pair");
    expect(yarngravel_may_take_both(&setup, change - 8, change - 7, change), "the last take-up");
    expect(!yarngravel_may_take_both(&setup, change - 7, change - 6, change), "that one tick later there is none");
    expect(yarngravel_may_take_both(&setup, change - 66, change - 65, change), "the first take-up");
    expect(!yarngravel_may_take_both(&setup, change - 67, change - 66, change), "that one tick sooner there is none");
    expect(yarngravel_may_take_wider(&setup, change + 17, change) && !yarngravel_may_take_wider(&setup, change + 16, change) &&
               yarngravel_may_take_wider(&setup, change + 64, change) && !yarngravel_may_take_wider(&setup, change + 65, change),
           "when the plain new setup may be taken");
}

// a narrow and a wide frame in one hand-out: written, read, walked over and charged
void try_both_widths() {
    const yarngravel_setup setup = {n, epsilon, delta, 65, own, 4, 9, 25, 0};
    std::vector<uint8_t> handout = {2, 0}, tables(YARNGRAVEL_TABLES, 0), stamp(YARNGRAVEL_TABLES), ledger(YARNGRAVEL_LEDGER, 0);
    const uint64_t answer = static_cast<uint64_t>(2) << 32;
    for (unsigned wide = 0; wide < 2; wide++) {
        uint8_t ticket[YARNGRAVEL_PRESS];
        std::vector<uint8_t> frame(yarngravel_frame_size_in(&setup));
        yarngravel_press(ticket, 7 + wide, 100, 1);
        tables.assign(YARNGRAVEL_TABLES, 0);
        tables[3 + (wide ? 4 : epsilon)] = 1;
        const uint64_t wrote = yarngravel_write_in(&setup, 1, wide == 1, tables.data(), ticket, sizeof ticket, frame.data(), frame.size());
        expect(yarngravel_number(wrote) == 0 && yarngravel_written(wrote) == 7 + (wide ? 8u : 4u) + sizeof ticket, "a frame's length");
        frame.resize(yarngravel_written(wrote));
        const uint64_t read = yarngravel_read_in(&setup, frame.data(), frame.size(), stamp.data());
        expect(yarngravel_is_wide(read) == (wide == 1) && yarngravel_station(read) == 1 && stamp == tables, "what is read of either width");
        expect(yarngravel_frame_epsilon(frame.data()) == (wide ? 4 : epsilon), "half the number of counts");
        handout.insert(handout.end(), frame.begin(), frame.end());
    }
    yarngravel_walk walk = yarngravel_walk_of(answer, handout.data());
    unsigned seen = 0;
    while (yarngravel_walk_next_in(&walk)) expect(walk.len == (seen++ == 0 ? 21u : 25u), "the walk over both widths");
    expect(seen == 2 && walk.frame + walk.len == handout.data() + handout.size(), "the walk's end");
    uint64_t charged = 0;
    walk = yarngravel_walk_of(answer, handout.data());
    while (yarngravel_charge_next_in(&walk, 1250, ledger.data(), &charged)) expect(yarngravel_cents(charged) == 1250, "a charge");
    expect(yarngravel_total_cents(yarngravel_total(1, ledger.data(), ledger.size())) == 2500, "the charges of both widths");
}

struct Board {
    std::vector<uint8_t> shelf, bundle, verdicts, handout;
    size_t bundle_len;
    std::string shown;

    Board()
        : shelf(yarngravel_shelf_size(n, epsilon, delta)), bundle(yarngravel_bundle_size(epsilon, 1)),
          verdicts(YARNGRAVEL_VERDICTS), handout(shelf.size()), bundle_len(yarngravel_bundle_start(bundle.data())), shown() {}

    void show(uint64_t answer) {
        expect(yarngravel_number(answer) == 0 && yarngravel_mend(answer) == 0, yarngravel_number_text(yarngravel_number(answer)));
        yarngravel_walk walk = yarngravel_walk_of(answer, handout.data());
        while (yarngravel_walk_next(&walk, epsilon)) {
            uint8_t stamp[YARNGRAVEL_TABLES];
            const uint64_t read = yarngravel_read(n, epsilon, delta, modulus, own, walk.frame, walk.len, stamp);
            expect(yarngravel_number(read) == 0, "that a handed-out frame reads");
            shown.append(reinterpret_cast<const char *>(walk.frame) + yarngravel_ticket_at(read), yarngravel_ticket_len(read));
        }
        bundle_len = yarngravel_bundle_start(bundle.data());
    }

    void hear(const std::vector<uint8_t> &frame, size_t len) {
        expect(yarngravel_frame_len(epsilon, frame.data()) == len, "that a frame's length is what was sent");
        expect(yarngravel_bundle_add(bundle.data(), bundle.size(), &bundle_len, frame.data(), len), "room for one frame");
    }
};

// the station sends a letter in each tick, and both boards show them all, those that are due, in their order
void play() {
    Board station, observer;
    uint8_t tables[YARNGRAVEL_TABLES], last[YARNGRAVEL_LAST];
    std::vector<uint8_t> outgoing(yarngravel_frame_size(epsilon));
    expect(yarngravel_fresh(n, epsilon, delta, modulus, own, modulus - 1, tables) == 0, "a start at the clock before 0");
    expect(yarngravel_fresh_last(n, epsilon, delta, modulus, modulus - 1, last) == 0, "the observer's start there");
    for (uint32_t clock = 0; clock < 26; clock++) {
        const uint8_t letter = static_cast<uint8_t>('a' + clock);
        const uint64_t ticked = yarngravel_tick(
            n, epsilon, delta, modulus, own, clock % modulus, tables, station.shelf.data(), station.shelf.size(),
            station.bundle.data(), station.bundle_len, true, &letter, 1, outgoing.data(), outgoing.size(), station.verdicts.data(),
            station.verdicts.size(), station.handout.data(), station.handout.size());
        const uint64_t listened = yarngravel_listen(
            n, epsilon, delta, modulus, clock % modulus, last, observer.shelf.data(), observer.shelf.size(), observer.bundle.data(),
            observer.bundle_len, observer.verdicts.data(), observer.verdicts.size(), observer.handout.data(),
            observer.handout.size());
        station.show(ticked);
        observer.show(listened);
        expect(yarngravel_last_clock(tables) == clock % modulus && !std::memcmp(tables, last, sizeof last), "the last clock");
        station.hear(outgoing, yarngravel_sent(ticked));
        observer.hear(outgoing, yarngravel_sent(ticked));
    }
    const std::string sent = "abcdefghijklmnopqrstuvwxyz", due = sent.substr(0, 26 - delta - epsilon);
    expect(station.shown == due, "what the station's board shows");
    expect(observer.shown == station.shown, "that the observer's board shows the same");
    std::printf("from C++, version %s: both boards show %s\n", YARNGRAVEL_VERSION_TEXT, station.shown.c_str());
}

// the figures: a frame taken, one refused by 16, one of no station, one without a form; refusals change nothing, and no other number has a figure
void try_figures() {
    std::vector<uint8_t> figures(YARNGRAVEL_FIGURES, 0);
    const std::vector<uint8_t> bundle = {4, 2, 3, 1, 2, 3, 1, 2, 3, 3, 0}, verdicts = {0, 16, 11, 10};
    auto call = [&](uint32_t of, size_t bundle_len, size_t verdicts_len, size_t figures_len) {
        return yarngravel_figures(of, bundle.data(), bundle_len, verdicts.data(), verdicts_len, figures.data(), figures_len);
    };
    expect(call(17, 0, 0, 0) == YARNGRAVEL_BAD_SETUP && call(65536 + n, 0, 0, 0) == YARNGRAVEL_BAD_SETUP, "1 for an n above 16");
    expect(call(n, 0, 0, YARNGRAVEL_FIGURES - 1) == YARNGRAVEL_BAD_SHELF, "3 for short figures");
    expect(call(n, bundle.size() - 1, 0, YARNGRAVEL_FIGURES) == YARNGRAVEL_BAD_BUNDLE, "5 for a short bundle");
    expect(call(n, bundle.size(), 3, YARNGRAVEL_FIGURES) == YARNGRAVEL_BAD_BUFFERS, "6 for too few verdicts");
    expect(figures == std::vector<uint8_t>(YARNGRAVEL_FIGURES, 0), "that a refused call of the figures changes nothing");
    for (unsigned k = 1; k <= 300; k++) {
        expect(call(n, bundle.size(), verdicts.size(), YARNGRAVEL_FIGURES) == 0, "a call of the figures");
        const unsigned told = k < 256 ? k : 256;
        unsigned all = 0;
        for (uint32_t station = 0; station < 40; station++)
            for (unsigned number = 0; number < 40; number++) all += yarngravel_figure(figures.data(), station, number);
        expect(yarngravel_figure(figures.data(), 1, 0) == told && yarngravel_figure(figures.data(), 1, YARNGRAVEL_REPEAT) == told, "a figure");
        expect(all == 2 * told && yarngravel_figure_of_none(figures.data()) == 2 * told, "that no frame is told of twice");
    }
}

} // namespace

int main() {
    try_version();
    try_texts();
    try_fresh();
    try_fresh_last();
    try_long_fresh();
    try_charges();
    try_bundle();
    try_sizes();
    try_frames();
    try_engine();
    try_figures();
    try_both_pairs();
    try_both_widths();
    play();
    return 0;
}
