// The question of planner.c, asked from C++11, which has no named fields in braces: a struct is declared with {} and its fields are assigned.
//     {algebra,x0,lab(x1)} = {geometry,lab(logic)|x2}
#include "mensorique_print.h"

#include <cinttypes>
#include <cstdio>
#include <string>
#include <vector>

namespace {

const char *const courses[] = {"algebra", "geometry", "logic", "lab"};
const std::vector<uint8_t> arities = {0, 0, 0, 1};

uint16_t course(unsigned k) { return MENSORIQUE_FUNCTOR(k); }
uint16_t open(unsigned i) { return MENSORIQUE_UNKNOWN(i); }
const uint16_t with = MENSORIQUE_WITH, empty = MENSORIQUE_EMPTY;

const std::vector<uint16_t> words = {
    with, course(0), with, open(0), with, course(3), open(1), empty, // {algebra,x0,lab(x1)}
    with, course(1), with, course(3), course(2), open(2),            // {geometry,lab(logic)|x2}
};

// A term with the courses' names: measured first, then printed.
std::string named(const mensorique_terms &term) {
    mensorique_names names = {};
    names.functors = courses;
    names.functors_length = MENSORIQUE_LENGTH(courses);
    const size_t length = mensorique_print(nullptr, 0, term, names);
    if (length == MENSORIQUE_NO_TERM)
        return "(too long)";
    std::string text(length + 1, '\0');
    mensorique_print(&text[0], text.size(), term, names);
    text.resize(length);
    return text;
}

} // namespace

int main() {
    mensorique_question question = {};
    question.unknowns = 3;
    question.arities = arities.data();
    question.arities_length = arities.size();
    question.equations = 1;
    question.words = words.data();
    question.words_length = words.size();
    const mensorique_terms left = mensorique_first_term(mensorique_question_terms(question));
    const mensorique_terms right = mensorique_after_term(mensorique_question_terms(question));
    std::printf("asked: %s = %s\n", named(left).c_str(), named(right).c_str());

    mensorique_run_loan loan = {};
    loan.depth = 32;
    loan.size = 128;
    std::vector<uint16_t> answers(1024), filled(256);
    std::vector<mensorique_room_word> room(mensorique_call_room_words(loan));
    loan.answers = answers.data();
    loan.answers_length = answers.size();
    loan.room = room.data();
    loan.room_length = room.size();
    for (loan.steps = 500; loan.steps <= 5000000; loan.steps *= 100) {
        const mensorique_ran ran = mensorique_call_run(question, loan);
        if (ran.status != MENSORIQUE_GRANTED) {
            std::printf("refused=%" PRIu32 " place=%zu: %s\n", ran.status, ran.place, mensorique_status_text(ran.status));
            return 1;
        }
        std::printf("steps %" PRIu64 ": %s, visited %" PRIu64 ", answers %" PRIu64 "\n", loan.steps, mensorique_end_text(ran.list.end), ran.list.visited,
                    ran.list.count);
        for (auto answer = mensorique_first_answer(ran.list); answer.found == MENSORIQUE_HERE; answer = mensorique_next_answer(answer)) {
            std::printf("%" PRIu64 ":", answer.number + 1);
            for (size_t i = 0; i < question.unknowns; i++)
                std::printf(" x%zu=%s", i, named(mensorique_value(answer, i, filled.data(), filled.size()).terms).c_str());
            std::printf(" group=%s\n", named(mensorique_fill(answer, left, filled.data(), filled.size()).terms).c_str());
        }
        std::puts(ran.list.end == MENSORIQUE_END_DONE ? "these are all" : "there may be more");
        if (ran.list.end != MENSORIQUE_END_STEPS)
            break;
    }
    return 0;
}
