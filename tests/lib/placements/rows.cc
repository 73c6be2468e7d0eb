#include "rows.h"
#include <cstdio>
#include <string>

enum { FIRST_GENERATION = 100, COPIES_OF_ROW = 3, MOST_OPERATIONS = 40 };
enum Change { COPY, DOWNLOAD, FORMAT, START, CONFIRM, END };

/* The generation of slot 1 in the library, which goes round after 255, next to that of slot 0. */
static int generation_of(const Placement &p, Contents part, int slot) {
    const int first = header_at(p, part, 0).generation, mine = header_at(p, part, slot).generation;
    const int ahead = (mine - first + GENERATIONS) % GENERATIONS;
    return FIRST_GENERATION + first + (ahead == 3 ? -1 : ahead);
}

/* A header as library.c reads it: `-`, `jG`, or `G.L.R` with the generation, the length in units, and the register: that of the slot's own
 * data, that of the other slot's image, or none of both. */
static std::string header_text(const Placement &p, Contents part, int slot) {
    const Header mine = header_at(p, part, slot), other = header_at(p, part, 1 - slot);
    if (value_at(part, header_of(slot)) == BLANK)
        return "-";
    if (!mine.is_version_2)
        return "j" + std::to_string(generation_of(p, part, slot));
    const bool is_other = is_intact(p, part, 1 - slot) && other.length == mine.length && other.sum == mine.sum;
    const char *sum = is_intact(p, part, slot) ? "own" : is_other ? "other" : "none";
    return std::to_string(generation_of(p, part, slot)) + "." + std::to_string(mine.length) + "." + sum;
}
static std::string slot_text(const Placement &p, Contents part, int slot) {
    std::string text = " " + std::to_string(value_at(part, gate_of(slot))) + " " + header_text(p, part, slot) + " ";
    for (int number = 0; number < p.units; number++)
        text += (char)('0' + value_at(part, unit_of(slot, number)));
    text += " ";
    for (int number = 0; number < p.marks; number++)
        text += (char)('0' + value_at(part, mark_of(slot, number)));
    return p.marks != 0 ? text : text + "-";
}

/* Returns whether the register of the library tells two images apart that the model's bit does not, so that the two need not agree. */
static bool says_less(const Placement &p, Contents part) {
    const Header first = header_at(p, part, 0), second = header_at(p, part, 1);
    bool is_same = true;
    if (!first.is_version_2 || !second.is_version_2 || first.length != second.length || first.sum != second.sum)
        return false;
    for (int number = 0; number < first.length; number++)
        is_same = is_same && value_at(part, unit_of(0, number)) == value_at(part, unit_of(1, number));
    return !is_same;
}

/* An operation as library.c notes it: e or p, the cell, and of a program its value; of a header that is the generation and the length. */
static std::string operation_text(const Placement &p, Contents part, const Operation &operation) {
    static const char letters[] = {'g', 'h', 'd', 'm'};
    const Kind kind = kind_of(operation.cell);
    const int slot = slot_of(operation.cell);
    std::string text = operation.kind == Operation::ERASE ? " e" : " p";
    text += letters[kind] + std::to_string(slot);
    if (kind == UNIT || kind == MARK)
        text += "." + std::to_string(number_of(operation.cell));
    if (operation.kind == Operation::PROGRAM && kind == UNIT)
        text += "=" + std::to_string(operation.value);
    if (operation.kind == Operation::PROGRAM && kind == HEADER) {
        const Header header = header_at(p, done(p, part, operation), slot);
        text += "=" + std::to_string(header.generation) + "." + std::to_string(header.length);
    }
    return text;
}

/* Carries an operation out, and notes it. */
static Contents noted(const Placement &p, Contents part, const Operation &operation, std::string &text) {
    if (operation.kind == Operation::NONE)
        return part;
    text += operation_text(p, part, operation);
    return done(p, part, operation);
}

/* A copy, of which the operation of this number, from 1 on, fails once and changes nothing; with 0 none does. */
static std::string copy_text(const Placement &p, Contents part, int failing) {
    int last = NOWHERE;
    std::string text;
    for (int count = 1; count <= MOST_OPERATIONS; count++) {
        const Operation operation = copy_due(p, part, last);
        if (operation.kind == Operation::NONE)
            break;
        const Contents left = noted(p, part, operation, text);
        last = count == failing ? NOWHERE : operation.cell;
        part = count == failing ? part : left;
    }
    return text;
}
static std::string download_text(const Placement &p, Contents part, int image) {
    std::string text;
    if (p.rules == TRIALS)
        part = noted(p, part, end_due(p, part), text);
    for (int step = 0; step < steps_of(image_of(p, image)); step++)
        part = noted(p, part, download_step(p, part, image, step), text);
    return text;
}
static std::string format_text(const Placement &p, Contents part, int image) {
    std::string text;
    for (int step = 0; step < 1 + steps_of(image_of(p, image)); step++)
        part = noted(p, part, format_step(p, part, image, step), text);
    return text;
}
static std::string text_of(const Placement &p, Contents part, Change change, int number) {
    std::string text;
    switch (change) {
    case COPY: return copy_text(p, part, number);
    case DOWNLOAD: return download_text(p, part, number);
    case FORMAT: return format_text(p, part, number);
    case START: noted(p, part, start_due(p, part), text); break;
    case CONFIRM: noted(p, part, confirm_due(p, part, number), text); break;
    case END: noted(p, part, end_due(p, part), text); break;
    }
    return text;
}

/* The units of an image, a digit each. */
static std::string image_text(const Image &image) {
    std::string text;
    for (int number = 0; number < image.length; number++)
        text += (char)('0' + image.units[number]);
    return text;
}
/* The last word is the image; of a copy the number of the operation that fails; of a confirmation the slot of the program. */
static void print_row(FILE *file, const Placement &p, int units_of_sector, Contents part, Change change, int number) {
    static const char *const names[] = {"copy", "download", "format", "start", "confirm", "end"};
    const std::string of = change == DOWNLOAD || change == FORMAT ? image_text(image_of(p, number)) : std::to_string(number);
    fprintf(file, "%d %d %d %d%s%s %s %s:%s\n", units_of_sector, p.units, p.block, p.marks, slot_text(p, part, 0).c_str(),
            slot_text(p, part, 1).c_str(), names[change], of.c_str(), text_of(p, part, change, number).c_str());
}

void print_rows(FILE *file, const Placement &p, int units_of_sector, const std::vector<Contents> &parts) {
    const size_t apart = parts.size() / MOST_PARTS + 1;
    for (size_t i = 0; i < parts.size(); i += apart) {
        if (says_less(p, parts[i]))
            continue;
        for (int image = 0; image < IMAGES; image++)
            print_row(file, p, units_of_sector, parts[i], DOWNLOAD, image), print_row(file, p, units_of_sector, parts[i], FORMAT, image);
        for (int time = 0; p.rules != TRIALS && time < COPIES_OF_ROW; time++)
            print_row(file, p, units_of_sector, parts[i], COPY, 2 * time);
        if (p.rules != TRIALS)
            continue;
        for (Change change : {START, END})
            print_row(file, p, units_of_sector, parts[i], change, 0);
        for (int slot = 0; slot < SLOTS; slot++)
            print_row(file, p, units_of_sector, parts[i], CONFIRM, slot);
    }
}
