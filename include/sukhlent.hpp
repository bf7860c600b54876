// The engine for C++17 and later: records, generator lists, stores and groups as values, over sukhlent.h.
//
//   auto bell = sukhlent::Record::zeros(2).value();
//   bell.gate(0, SUKHLENT_GATE_H).value();        // value() throws sukhlent::Refused where the call is refused
//   if (auto done = bell.cz(0, 0); !done)         // or the refusal is read: nothing is thrown
//       std::puts(sukhlent::text(done.refusal()));
//
// Every call gives an Answer, which holds what the call answers, or the refusal: the first number of the published list
// (sukhlent.h) whose line is true. A refused call leaves its object as it was. The compiler warns of an Answer that nobody
// looks at. Without exceptions (-fno-exceptions) value() of a refusal ends the program; all else is the same.
// Slices pass as sukhlent::Span, which is std::span from C++20 on and a pointer with a length before.
// examples/cpp/record.cpp shows the classes. Nothing is compiled: the header needs the C library alone.
#ifndef SUKHLENT_HPP
#define SUKHLENT_HPP

#include <array>
#include <cstddef>
#include <cstdint>
#include <cstdlib>
#include <stdexcept>
#include <string>
#include <string_view>
#include <utility>
#include <vector>
#if defined(__has_include)
#if __has_include(<version>)
#include <version>
#endif
#endif
#ifdef __cpp_lib_span
#include <span>
#endif

#include "sukhlent_record.h"

namespace sukhlent {

// ---- Refusals and answers

enum class Refusal : std::uint8_t {
    Accepted = SUKHLENT_ACCEPTED,
    Form = SUKHLENT_FORM,
    Steps = SUKHLENT_STEPS,
    Count = SUKHLENT_COUNT,
    Length = SUKHLENT_LENGTH,
    Stray = SUKHLENT_STRAY,
    Value = SUKHLENT_VALUE,
    Graph = SUKHLENT_GRAPH,
    OtherGroup = SUKHLENT_OTHER_GROUP,
    Qubit = SUKHLENT_QUBIT,
    Used = SUKHLENT_USED,
    NotUsed = SUKHLENT_NOT_USED,
    NotHeld = SUKHLENT_NOT_HELD,
    Full = SUKHLENT_FULL,
    Anticommute = SUKHLENT_ANTICOMMUTE,
    Dependent = SUKHLENT_DEPENDENT,
    Large = SUKHLENT_LARGE,
    Contradicted = SUKHLENT_CONTRADICTED,
    ImageC = SUKHLENT_IMAGE_C,
    ImageY = SUKHLENT_IMAGE_Y,
    Inequivalent = SUKHLENT_INEQUIVALENT
};

// What a refusal means, in words.
inline const char *text(Refusal refusal) { return sukhlent_refusal_text(static_cast<std::uint8_t>(refusal)); }

// What value() throws.
class Refused : public std::runtime_error {
public:
    explicit Refused(Refusal refusal) : std::runtime_error(text(refusal)), refusal_(refusal) {}
    Refusal refusal() const noexcept { return refusal_; }

private:
    Refusal refusal_;
};

[[noreturn]] inline void refuse(Refusal refusal)
{
#if defined(__cpp_exceptions) || defined(_CPPUNWIND)
    throw Refused(refusal);
#else
    (void)refusal;
    std::abort();
#endif
}

// What a call answers, or its refusal. Of a refused call the value is that of T{}, and of no meaning.
template <class T> class [[nodiscard]] Answer {
public:
    Answer(T value) : refusal_(Refusal::Accepted), value_(std::move(value)) {}
    Answer(Refusal refusal) : refusal_(refusal), value_() {}

    explicit operator bool() const noexcept { return refusal_ == Refusal::Accepted; }
    Refusal refusal() const noexcept { return refusal_; }

    const T &value() const & { return checked(), value_; }
    T value() && { return checked(), std::move(value_); }
    const T &operator*() const & { return value(); }
    const T *operator->() const & { return &value(); }
    const T &operator*() const && = delete; // of an answer that is gone at once: value() gives the value itself
    const T *operator->() const && = delete;

private:
    void checked() const
    {
        if (refusal_ != Refusal::Accepted)
            refuse(refusal_);
    }

    Refusal refusal_;
    T value_;
};

// The answer of a call that has nothing else to say.
template <> class [[nodiscard]] Answer<void> {
public:
    Answer(Refusal refusal) : refusal_(refusal) {}

    explicit operator bool() const noexcept { return refusal_ == Refusal::Accepted; }
    Refusal refusal() const noexcept { return refusal_; }
    void value() const
    {
        if (refusal_ != Refusal::Accepted)
            refuse(refusal_);
    }

private:
    Refusal refusal_;
};

using Done = Answer<void>;

namespace detail {

inline Refusal refusal(std::uint8_t number) { return static_cast<Refusal>(number); }

// The value where the number is 0, else the refusal.
template <class T> Answer<T> answer(std::uint8_t number, T value)
{
    if (number != SUKHLENT_ACCEPTED)
        return refusal(number);
    return value;
}

} // namespace detail

// ---- Slices

#ifdef __cpp_lib_span
template <class T> using Span = std::span<T>;
#else
template <class T> class Span {
public:
    Span() noexcept : data_(nullptr), size_(0) {}
    Span(T *data, std::size_t size) noexcept : data_(data), size_(size) {}
    template <std::size_t N> Span(T (&places)[N]) noexcept : data_(places), size_(N) {}
    template <class Places, class = decltype(static_cast<T *>(std::declval<Places &>().data()))>
    Span(Places &&places) noexcept : data_(places.data()), size_(places.size())
    {
    }

    T *data() const noexcept { return data_; }
    std::size_t size() const noexcept { return size_; }
    bool empty() const noexcept { return size_ == 0; }
    T &operator[](std::size_t k) const { return data_[k]; }
    T *begin() const noexcept { return data_; }
    T *end() const noexcept { return data_ + size_; }

private:
    T *data_;
    std::size_t size_;
};
#endif

// ---- What calls answer

enum class Pauli : std::uint8_t { X = SUKHLENT_PAULI_X, Y = SUKHLENT_PAULI_Y, Z = SUKHLENT_PAULI_Z };

enum class Expectation : std::uint8_t { Plus = SUKHLENT_PLUS, Minus = SUKHLENT_MINUS, Neither = SUKHLENT_NEITHER };

struct Measured {
    bool outcome = false;
    bool determined = false;
};

struct Amplitude {
    double re = 0, im = 0, p = 0;
};

// The product of rows: a power of i, and letters.
struct Product {
    std::uint64_t z = 0, x = 0;
    std::uint8_t phase = 0;
};

// Codes that carry one state onto another, and the complementations between their graphs.
struct Carried {
    std::vector<std::uint8_t> choice, list;
};

// The image of a graph through its codes.
struct Image {
    std::vector<std::uint64_t> neighbours;
    std::vector<std::uint8_t> signs, list;
};

// A step of a run. What an operation does not use is 0.
struct Step {
    std::uint8_t op = SUKHLENT_OP_GATE;
    std::uint16_t a = 0, b = 0, value = 0;

    static Step gate(std::uint16_t qubit, std::uint8_t code) { return {SUKHLENT_OP_GATE, qubit, 0, code}; }
    static Step cz(std::uint16_t a, std::uint16_t b) { return {SUKHLENT_OP_CZ, a, b, 0}; }
    static Step complement(std::uint16_t a) { return {SUKHLENT_OP_COMPLEMENT, a, 0, 0}; }
    static Step pivot(std::uint16_t a, std::uint16_t b) { return {SUKHLENT_OP_PIVOT, a, b, 0}; }
    static Step measure(Pauli pauli, std::uint16_t qubit, bool outcome)
    {
        const int value = 2 * (static_cast<int>(pauli) - 1) + (outcome ? 1 : 0);
        return {SUKHLENT_OP_MEASURE, qubit, 0, static_cast<std::uint16_t>(value)};
    }
    // A measurement with a bit by lot, which plays no part where the state determines the outcome.
    static Step observe(Pauli pauli, std::uint16_t qubit, bool bit)
    {
        const int value = 2 * (static_cast<int>(pauli) - 1) + (bit ? 1 : 0);
        return {SUKHLENT_OP_OBSERVE, qubit, 0, static_cast<std::uint16_t>(value)};
    }
    // A new photon at a used qubit, by its code: one of the SUKHLENT_PHOTON numbers.
    static Step renew(std::uint16_t qubit, std::uint8_t code) { return {SUKHLENT_OP_RENEW, qubit, 0, code}; }
};

// What a step of a run answered.
struct Stepped {
    Refusal refusal = Refusal::Accepted;
    Measured measured;
};

namespace detail {

inline Carried carried(const sukhlent_carried &found)
{
    return {{found.choice, found.choice + found.n}, {found.list, found.list + found.count}};
}

inline Answer<Carried> carried(std::uint8_t number, const sukhlent_carried &found)
{
    if (number != SUKHLENT_ACCEPTED)
        return refusal(number);
    return carried(found);
}

} // namespace detail

// ---- Generator lists

// A list of n generators that commute and are independent.
class List {
public:
    // From the bits of each generator; the three slices have one length.
    static Answer<List> of(Span<const std::uint8_t> signs, Span<const std::uint64_t> z, Span<const std::uint64_t> x)
    {
        List made;
        if (signs.size() == 0 || signs.size() > SUKHLENT_QUBITS)
            return Refusal::Count;
        if (z.size() != signs.size() || x.size() != signs.size())
            return Refusal::Length;
        made.list_.n = signs.size();
        for (std::size_t j = 0; j < signs.size(); j++) {
            made.list_.signs[j] = signs[j];
            made.list_.z[j] = z[j];
            made.list_.x[j] = x[j];
        }
        return detail::answer(sukhlent_list_check(&made.list_), made);
    }

    // From lines such as "+XX\n-ZZ\n".
    static Answer<List> read(std::string_view text)
    {
        List made;
        const char *bytes = text.empty() ? "" : text.data();
        return detail::answer(sukhlent_list_read(&made.list_, bytes, text.size()), made);
    }

    // Its lines, as read takes them.
    Answer<std::string> text() const
    {
        std::string made(list_.n * (list_.n + 2), ' ');
        const std::uint8_t number = sukhlent_list_write(&list_, made.data(), made.size());
        return detail::answer(number, std::move(made));
    }

    // The product of the rows that a word names, in index order.
    Answer<Product> product(std::uint64_t chosen) const
    {
        Product made;
        return detail::answer(sukhlent_list_product(&list_, chosen, &made.z, &made.x, &made.phase), made);
    }

    // The least codes that carry this list's group onto another's; connected parts have at most 20 vertices.
    Answer<Carried> compare(const List &other) const
    {
        sukhlent_carried found;
        return detail::carried(sukhlent_list_compare(&list_, &other.list_, &found), found);
    }

    // The same, of parts of any size.
    Answer<Carried> equivalent(const List &other) const
    {
        sukhlent_carried found;
        return detail::carried(sukhlent_list_equivalent(&list_, &other.list_, &found), found);
    }

    std::size_t size() const noexcept { return static_cast<std::size_t>(list_.n); }
    Span<const std::uint8_t> signs() const noexcept { return {list_.signs, size()}; }
    Span<const std::uint64_t> z() const noexcept { return {list_.z, size()}; }
    Span<const std::uint64_t> x() const noexcept { return {list_.x, size()}; }
    const sukhlent_list &raw() const noexcept { return list_; }

private:
    friend class Record;
    template <class> friend class Answer;
    List() : list_{} {}

    sukhlent_list list_;
};

// ---- Records

// A record: a value, copied by = and compared by ==. Two reduced records are equal exactly if their states are, and the
// same qubits are used; what zeros, graph, reduce, gate, cz, cnot and measure leave is reduced.
class Record {
public:
    // Every qubit in +Z.
    static Answer<Record> zeros(std::uint64_t n) { return of(sukhlent_record_zeros(n)); }

    // The state of a graph, from its edges.
    static Answer<Record> graph(std::uint64_t n, Span<const std::pair<std::uint64_t, std::uint64_t>> edges)
    {
        Answer<Record> checked = of(sukhlent_record_plus(n));
        if (!checked)
            return checked.refusal();
        Record made = checked.value();
        for (const auto &edge : edges)
            if (const Done done = made.cz(edge.first, edge.second); !done)
                return done.refusal();
        return made;
    }

    // The reduced record of a list's group.
    static Answer<Record> reduce(const List &list)
    {
        Record made;
        return detail::answer(sukhlent_record_reduce(&made.record_, &list.list_), made);
    }

    // From the text that text() writes and the programs print, byte for byte.
    static Answer<Record> read(std::string_view text)
    {
        Record made;
        const char *bytes = text.empty() ? "" : text.data();
        return detail::answer(sukhlent_record_read(&made.record_, bytes, text.size()), made);
    }

    // Its text, as read takes it.
    Answer<std::string> text() const
    {
        std::string made(SUKHLENT_RECORD_PLACES, ' ');
        std::uint64_t length = 0;
        const std::uint8_t number = sukhlent_record_write(&record_, made.data(), &length);
        made.resize(length);
        return detail::answer(number, std::move(made));
    }

    // From words, codes and the used word; the two slices have one length.
    static Answer<Record> of(Span<const std::uint64_t> neighbours, Span<const std::uint8_t> codes, std::uint64_t used = 0)
    {
        sukhlent_record made = {};
        if (neighbours.size() == 0 || neighbours.size() > SUKHLENT_QUBITS)
            return Refusal::Count;
        if (codes.size() != neighbours.size())
            return Refusal::Length;
        made.n = neighbours.size();
        made.used = used;
        for (std::size_t q = 0; q < neighbours.size(); q++) {
            made.neighbours[q] = neighbours[q];
            made.codes[q] = codes[q];
        }
        return of(made);
    }

    // From the struct of C, which is checked.
    static Answer<Record> of(const sukhlent_record &record)
    {
        std::uint64_t rank = 0;
        return detail::answer(sukhlent_record_cut(&record, 0, &rank), Record(record));
    }

    Done gate(std::uint64_t qubit, std::uint8_t code) { return done(sukhlent_record_gate(&record_, qubit, code)); }
    Done cz(std::uint64_t a, std::uint64_t b) { return done(sukhlent_record_cz(&record_, a, b)); }
    Done complement(std::uint64_t a) { return done(sukhlent_record_complement(&record_, a)); }
    Done cnot(std::uint64_t control, std::uint64_t target)
    {
        return done(sukhlent_record_cnot(&record_, control, target));
    }

    // Measures, with this outcome where the state does not determine it.
    Answer<Measured> measure(Pauli pauli, std::uint64_t qubit, bool outcome)
    {
        sukhlent_measured found = {0, 0};
        const std::uint8_t letter = static_cast<std::uint8_t>(pauli);
        const std::uint8_t number = sukhlent_record_measure(&record_, letter, qubit, outcome ? 1 : 0, &found);
        return detail::answer(number, Measured{found.outcome == 1, found.determined == 1});
    }

    // Measures with a bit by lot, which plays no part where the state determines the outcome.
    Answer<Measured> observe(Pauli pauli, std::uint64_t qubit, bool bit)
    {
        sukhlent_measured found = {0, 0};
        const std::uint8_t letter = static_cast<std::uint8_t>(pauli);
        const std::uint8_t number = sukhlent_record_observe(&record_, letter, qubit, bit ? 1 : 0, &found);
        return detail::answer(number, Measured{found.outcome == 1, found.determined == 1});
    }

    // Measures a Pauli row of any weight, sign plus, with a bit by lot; no qubit is used up.
    Answer<Measured> measure_row(std::uint64_t z, std::uint64_t x, bool bit)
    {
        sukhlent_measured found = {0, 0};
        const std::uint8_t number = sukhlent_record_measure_row(&record_, z, x, bit ? 1 : 0, &found);
        return detail::answer(number, Measured{found.outcome == 1, found.determined == 1});
    }

    // Puts a new photon at a used qubit, in the state of a code: 0, 2, 4, 6, 8, 10 are +X, -X, +Y, -Y, +Z, -Z.
    Done renew(std::uint64_t qubit, std::uint8_t code)
    {
        return done(sukhlent_record_renew(&record_, qubit, code));
    }

    // Runs at most 4,096 steps, each with its own refusal; the record is checked once.
    Answer<std::vector<Stepped>> run(Span<const Step> steps)
    {
        const std::size_t most = SUKHLENT_MOST_STEPS;
        if (steps.size() > most)
            return Refusal::Steps;
        std::array<std::vector<std::uint16_t>, 3> fields;
        std::array<std::vector<std::uint8_t>, 4> bytes;
        for (auto &field : fields)
            field.resize(steps.size() + 1); // a pointer is never null
        for (auto &byte : bytes)
            byte.resize(steps.size() + 1);
        for (std::size_t k = 0; k < steps.size(); k++) {
            bytes[0][k] = steps[k].op;
            fields[0][k] = steps[k].a;
            fields[1][k] = steps[k].b;
            fields[2][k] = steps[k].value;
        }
        const std::uint8_t number = sukhlent_record_run(&record_, steps.size(), bytes[0].data(), fields[0].data(),
                                                        fields[1].data(), fields[2].data(), bytes[1].data(),
                                                        bytes[2].data(), bytes[3].data());
        std::vector<Stepped> made(steps.size());
        for (std::size_t k = 0; k < steps.size(); k++)
            made[k] = {detail::refusal(bytes[1][k]), {bytes[2][k] == 1, bytes[3][k] == 1}};
        return detail::answer(number, std::move(made));
    }

    // Its generators, in order.
    Answer<List> expand() const
    {
        List made;
        return detail::answer(sukhlent_record_expand(&record_, &made.list_), made);
    }

    Answer<Image> image() const
    {
        sukhlent_imaged found;
        const std::uint8_t number = sukhlent_record_image(&record_, &found);
        if (number != SUKHLENT_ACCEPTED)
            return detail::refusal(number);
        return Image{{found.neighbours, found.neighbours + found.n},
                     {found.signs, found.signs + found.n},
                     {found.list, found.list + found.count}};
    }

    // The entanglement between the qubits of a word and the others.
    Answer<std::uint64_t> cut(std::uint64_t side) const
    {
        std::uint64_t rank = 0;
        const std::uint8_t number = sukhlent_record_cut(&record_, side, &rank);
        return detail::answer(number, rank);
    }

    // The amplitude at a word, over that at the smallest word with one.
    Answer<Amplitude> amplitude(std::uint64_t y) const
    {
        Amplitude made;
        const std::uint8_t number = sukhlent_record_amplitude(&record_, y, &made.re, &made.im, &made.p);
        return detail::answer(number, made);
    }

    // The value of a Pauli row with sign plus.
    Answer<Expectation> expectation(std::uint64_t z, std::uint64_t x) const
    {
        std::uint8_t value = 0;
        const std::uint8_t number = sukhlent_record_expectation(&record_, z, x, &value);
        return detail::answer(number, static_cast<Expectation>(value));
    }

    // The least codes that carry this record's group onto another's; connected parts have at most 20 vertices.
    Answer<Carried> compare(const Record &other) const
    {
        sukhlent_carried found;
        return detail::carried(sukhlent_record_compare(&record_, &other.record_, &found), found);
    }

    // The same, of parts of any size.
    Answer<Carried> equivalent(const Record &other) const
    {
        sukhlent_carried found;
        return detail::carried(sukhlent_record_equivalent(&record_, &other.record_, &found), found);
    }

    // The numbers of all graphs that complementations reach, on up to 6 vertices.
    Answer<std::vector<std::uint16_t>> orbit() const
    {
        std::vector<std::uint16_t> made(SUKHLENT_ORBIT_PLACES);
        std::uint64_t count = 0;
        const std::uint8_t number = sukhlent_record_orbit(&record_, made.data(), &count);
        made.resize(static_cast<std::size_t>(count));
        return detail::answer(number, std::move(made));
    }

    std::size_t size() const noexcept { return static_cast<std::size_t>(record_.n); }
    Span<const std::uint64_t> neighbours() const noexcept { return {record_.neighbours, size()}; }
    Span<const std::uint8_t> codes() const noexcept { return {record_.codes, size()}; }
    std::uint64_t used() const noexcept { return record_.used; }
    const sukhlent_record &raw() const noexcept { return record_; }

    friend bool operator==(const Record &one, const Record &other) noexcept
    {
        return sukhlent_record_same(&one.record_, &other.record_) == 1;
    }
    friend bool operator!=(const Record &one, const Record &other) noexcept { return !(one == other); }

private:
    friend class Store;
    friend class Groups;
    template <class> friend class Answer;
    Record() : record_{} {}
    explicit Record(const sukhlent_record &record) : record_(record) {}

    static Done done(std::uint8_t number) { return detail::refusal(number); }

    sukhlent_record record_;
};

// ---- Stores and groups

// Up to eight named states.
class Store {
public:
    Store() : store_{} {}

    Done save(std::uint64_t name, const Record &record)
    {
        return detail::refusal(sukhlent_store_save(&store_, name, &record.record_));
    }
    Answer<Record> get(std::uint64_t name) const
    {
        Record made;
        const std::uint8_t number = sukhlent_store_return(&store_, name, &made.record_);
        return detail::answer(number, made);
    }
    Done forget(std::uint64_t name) { return detail::refusal(sukhlent_store_forget(&store_, name)); }

    const sukhlent_store &raw() const noexcept { return store_; }

private:
    sukhlent_store store_;
};

// Two groups on one record of 64 qubits: bit q of the word is the group of qubit q.
class Groups {
public:
    explicit Groups(std::uint64_t word) : groups_(sukhlent_groups_start(word)) {}

    Done gate(std::uint8_t group, std::uint64_t qubit, std::uint8_t code)
    {
        return detail::refusal(sukhlent_groups_gate(&groups_, group, qubit, code));
    }
    Done cz(std::uint8_t group, std::uint64_t a, std::uint64_t b)
    {
        return detail::refusal(sukhlent_groups_cz(&groups_, group, a, b));
    }
    Answer<Measured> measure(std::uint8_t group, Pauli pauli, std::uint64_t qubit, bool outcome)
    {
        sukhlent_measured found = {0, 0};
        const std::uint8_t letter = static_cast<std::uint8_t>(pauli);
        const std::uint8_t number = sukhlent_groups_measure(&groups_, group, letter, qubit, outcome ? 1 : 0, &found);
        return detail::answer(number, Measured{found.outcome == 1, found.determined == 1});
    }
    Answer<Measured> observe(std::uint8_t group, Pauli pauli, std::uint64_t qubit, bool bit)
    {
        sukhlent_measured found = {0, 0};
        const std::uint8_t letter = static_cast<std::uint8_t>(pauli);
        const std::uint8_t number = sukhlent_groups_observe(&groups_, group, letter, qubit, bit ? 1 : 0, &found);
        return detail::answer(number, Measured{found.outcome == 1, found.determined == 1});
    }
    Done renew(std::uint8_t group, std::uint64_t qubit, std::uint8_t code)
    {
        return detail::refusal(sukhlent_groups_renew(&groups_, group, qubit, code));
    }
    Done complement(std::uint8_t group, std::uint64_t a)
    {
        return detail::refusal(sukhlent_groups_complement(&groups_, group, a));
    }
    Done save(std::uint8_t group, std::uint64_t name)
    {
        return detail::refusal(sukhlent_groups_save(&groups_, group, name));
    }
    Done restore(std::uint8_t group, std::uint64_t name)
    {
        return detail::refusal(sukhlent_groups_return(&groups_, group, name));
    }
    Done forget(std::uint8_t group, std::uint64_t name)
    {
        return detail::refusal(sukhlent_groups_forget(&groups_, group, name));
    }

    Record record() const { return Record(groups_.record); }
    std::uint64_t word() const noexcept { return groups_.word; }

private:
    sukhlent_groups groups_;
};

// ---- Jobs

// The text of a job that anyone can repeat.
inline Answer<std::string> generate(std::uint64_t n, std::uint64_t count, std::uint64_t seed)
{
    std::vector<std::uint8_t> places(SUKHLENT_TEXT_PLACES);
    std::uint64_t length = 0;
    const std::uint8_t number = sukhlent_generate(n, count, seed, places.data(), SUKHLENT_TEXT_PLACES, &length);
    return detail::answer(number, std::string(places.begin(), places.begin() + static_cast<std::ptrdiff_t>(length)));
}

} // namespace sukhlent

#endif
