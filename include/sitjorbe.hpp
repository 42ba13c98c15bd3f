/*
 * Sitjorbe for C++17, over sitjorbe.h: outlines, meshes and exams that own their memory.
 *
 * Nothing here throws, but for std::bad_alloc where a std::vector finds no memory: a call that may be refused answers a result, which has a value or the refusal's
 * number and words. Coordinates are degrees, x to the right and y up; thresholds are tenths of a decibel. Nodes, quads and loops count from 0.
 */
#ifndef SITJORBE_HPP
#define SITJORBE_HPP

#include <array>
#include <cstddef>
#include <cstdint>
#include <cstdlib>
#include <cstring>
#include <memory>
#include <optional>
#include <utility>
#include <vector>

#include "sitjorbe.h"

namespace sitjorbe {

/** A place, in degrees. */
struct point {
    double x;
    double y;
};

/** A quad's nodes in the order in which they run round it: a, b, d, c. */
using quad = std::array<std::uint32_t, 4>;

/** What a result has for a refusal where memory can't be had. */
constexpr std::uint32_t no_memory = 0xffffffffu;

/** A list that belongs to something else, and lasts as long as that. */
template <class T> class span {
  public:
    constexpr span(const T *data, std::size_t size) noexcept : data_(data), size_(size) {}
    constexpr const T *data() const noexcept { return data_; }
    constexpr std::size_t size() const noexcept { return size_; }
    constexpr const T *begin() const noexcept { return data_; }
    constexpr const T *end() const noexcept { return data_ + size_; }
    constexpr const T &operator[](std::size_t k) const noexcept { return data_[k]; }

  private:
    const T *data_;
    std::size_t size_;
};

/** A value, or why there is none. Whoever takes a value that isn't there ends the program. */
template <class T> class [[nodiscard]] result {
  public:
    result(T value) : value_(std::move(value)) {}
    static result refused(std::uint32_t refusal) { return result(refusal, 0); }

    explicit operator bool() const noexcept { return value_.has_value(); }
    T &operator*() noexcept { return check(), *value_; }
    T *operator->() noexcept { return check(), &*value_; }
    /** The refusal's number, 0 where there is a value. */
    std::uint32_t refusal() const noexcept { return refusal_; }
    /** What is wrong and what to do about it. */
    const char *words() const noexcept {
        return refusal_ == no_memory ? "there isn't memory for so many quads: set a larger size" : sitjorbe_refusal_words(refusal_);
    }

  private:
    result(std::uint32_t refusal, int) noexcept : refusal_(refusal) {}
    void check() const noexcept {
        if (!value_)
            std::abort();
    }
    std::optional<T> value_;
    std::uint32_t refusal_ = 0;
};

/** An outline: the outer loop, and any number of holes in it. A loop closes by itself and may run either way round. */
class outline {
  public:
    explicit outline(const std::vector<point> &points) { append(outer_, points); }

    /** One more hole. */
    outline &hole(const std::vector<point> &points) {
        append(holes_, points);
        lengths_.push_back(points.size());
        return *this;
    }

    /** As the calls of sitjorbe.h take it. */
    sitjorbe_outline lent() const noexcept {
        sitjorbe_outline o = {outer_.data(), outer_.size(), holes_.data(), holes_.size(), lengths_.data(), lengths_.size()};
        return o;
    }

    /** Whether no two segments meet but neighbours, and every hole lies inside and apart. */
    result<bool> is_sound() const {
        const sitjorbe_outline o = lent();
        const sitjorbe_sound_answer answer = sitjorbe_sound_with(&o);
        return answer.refusal ? result<bool>::refused(answer.refusal) : result<bool>(answer.sound);
    }

    /** Whether a point is inside the outer loop and outside every hole. */
    result<bool> contains(point p) const {
        const sitjorbe_outline o = lent();
        const sitjorbe_contains_answer answer = sitjorbe_contains_with(&o, p.x, p.y);
        return answer.refusal ? result<bool>::refused(answer.refusal) : result<bool>(answer.inside);
    }

  private:
    static void append(std::vector<double> &list, const std::vector<point> &points) {
        for (const point &p : points) {
            list.push_back(p.x);
            list.push_back(p.y);
        }
    }

    std::vector<double> outer_, holes_;
    std::vector<std::size_t> lengths_;
};

class mesh;

/** An exam on a mesh: thresholds come and go, and both figures are kept. The mesh lasts longer than the exam. */
class exam {
  public:
    explicit exam(const mesh &on);

    /** Enters a node's threshold, 0 to 500 tenths of a decibel, or replaces it. */
    result<bool> enter(std::uint32_t node, std::uint32_t threshold) { return change(SITJORBE_ENTER, node, threshold); }
    /** Withdraws a node's threshold. */
    result<bool> withdraw(std::uint32_t node) { return change(SITJORBE_WITHDRAW, node, 0); }
    /** How many quads have all four thresholds. */
    std::uint32_t count() const noexcept { return results_.count; }
    /** The sum of those quads' thresholds. */
    std::uint32_t sum() const noexcept { return results_.sum; }
    /** The threshold at a node. */
    result<std::uint32_t> threshold(std::uint32_t node) const {
        const sitjorbe_exam_answer answer = read({SITJORBE_READER, SITJORBE_READ_THRESHOLD, node, 0, 0, 0});
        return answer.refusal ? result<std::uint32_t>::refused(answer.refusal) : result<std::uint32_t>(answer.threshold);
    }
    /** The estimate in a quad a, b, d, c at the weights u, from a towards b, and v, from a towards c, of 256. */
    result<std::uint32_t> estimate(std::uint32_t quad, std::uint32_t u, std::uint32_t v) const {
        const sitjorbe_exam_answer answer = read({SITJORBE_READER, SITJORBE_READ_ESTIMATE, quad, 0, u, v});
        return answer.refusal ? result<std::uint32_t>::refused(answer.refusal) : result<std::uint32_t>(answer.estimate);
    }
    /** Any request of the desk, as sitjorbe_exam answers it. */
    sitjorbe_exam_answer ask(const sitjorbe_asked &asked);
    /** Any request of a reader or a masked reader, as sitjorbe_exam_read answers it: nothing is written. */
    sitjorbe_exam_answer read(const sitjorbe_asked &asked) const;

  private:
    result<bool> change(std::uint32_t operation, std::uint32_t node, std::uint32_t value) {
        const std::uint32_t refusal = ask({SITJORBE_DESK, operation, node, value, 0, 0}).refusal;
        return refusal ? result<bool>::refused(refusal) : result<bool>(true);
    }

    /** The results, whose list is wherever this exam is now. */
    sitjorbe_results lent(std::uint16_t *thresholds) const noexcept { return {thresholds, thresholds_.size(), results_.count, results_.sum}; }

    const mesh *mesh_;
    std::vector<std::uint16_t> thresholds_;
    sitjorbe_results results_;
};

/** A mesh in memory of its own: what a run made, or what steps left. */
class mesh {
  public:
    std::size_t node_count() const noexcept { return counts_.nodes; }
    std::size_t quad_count() const noexcept { return counts_.quads; }
    /** A node's place. */
    point node(std::size_t k) const noexcept { return {lists_.xs[k], lists_.ys[k]}; }
    /** A quad's nodes. */
    sitjorbe::quad quad(std::size_t k) const noexcept {
        const std::uint32_t *at = lists_.quads + 4 * k;
        return {at[0], at[1], at[2], at[3]};
    }
    /** For each node the outline's loop that it came from: 0 for the outer one, k + 1 for hole k. */
    span<std::uint16_t> origins() const noexcept { return {lists_.origins, counts_.nodes}; }
    /** For each node the next one on the front, or SITJORBE_OFF. */
    span<std::uint32_t> next() const noexcept { return {lists_.next, counts_.nodes}; }
    /** How the run ended: SITJORBE_END_STILL and so on. */
    std::uint32_t end() const noexcept { return end_; }
    /** Whether the run left no loop of the front and the outline is sound. */
    bool whole() const noexcept { return whole_; }
    /** The loops of the front that the run left, the rings round what isn't paved. */
    std::vector<span<std::uint32_t>> loops() const {
        std::vector<span<std::uint32_t>> found;
        const std::uint32_t *at = lists_.loops;
        for (std::size_t k = 0; k < loops_; at += lists_.loop_lengths[k++])
            found.emplace_back(at, lists_.loop_lengths[k]);
        return found;
    }

    /** Steps on the front edge from a to b: SITJORBE_OUTCOME_PLACED and so on. Where places run out they are made, and the step is made again. */
    result<std::uint32_t> step(std::uint32_t a, std::uint32_t b) {
        for (;;) {
            const sitjorbe_outline o = outline_.lent();
            const sitjorbe_step_answer answer = sitjorbe_step_with(&o, &settings_, &record_, &field_, &lists_, &counts_, a, b);
            if (answer.refusal)
                return result<std::uint32_t>::refused(answer.refusal);
            if (answer.outcome != SITJORBE_OUTCOME_FULL) {
                counts_ = sitjorbe_step_counts(answer);
                return answer.outcome;
            }
            if (!grow())
                return result<std::uint32_t>::refused(no_memory);
        }
    }

    /** What a step would do: its quad, the places of new nodes, and how many front edges there would be. */
    result<sitjorbe_preview_answer> preview(std::uint32_t a, std::uint32_t b) const {
        const sitjorbe_outline o = outline_.lent();
        std::vector<std::uint32_t> front(2 * counts_.front + 4);
        const sitjorbe_preview_answer answer =
            sitjorbe_preview_with(&o, &settings_, &record_, &field_, &lists_, &counts_, a, b, front.data(), front.size());
        return answer.refusal ? result<sitjorbe_preview_answer>::refused(answer.refusal) : result<sitjorbe_preview_answer>(answer);
    }

    /** Begins an exam. */
    sitjorbe::exam exam() const { return sitjorbe::exam(*this); }

    /** Whether the quads may be tested in this order; refusal 22 has the place of the first that stands too early. */
    sitjorbe_order_answer check_order(const std::vector<std::uint32_t> &order) const {
        std::vector<std::size_t> places(counts_.quads);
        std::vector<std::uint32_t> pool(8 * counts_.quads + 2);
        return sitjorbe_order_with(&lists_, &counts_, order.data(), order.size(), places.data(), places.size(), pool.data(), pool.size());
    }

    /** The nodes in steps of the motor bowl, two numbers a node. */
    result<std::vector<std::int32_t>> bowl_steps() const {
        std::vector<std::int32_t> steps(2 * std::size_t(counts_.nodes));
        const std::uint32_t refusal = sitjorbe_bowl_steps_with(&lists_, &counts_, steps.data(), steps.size()).refusal;
        return refusal ? result<std::vector<std::int32_t>>::refused(refusal) : result<std::vector<std::int32_t>>(std::move(steps));
    }

    /** Lists and counts, for the calls of sitjorbe.h. */
    const sitjorbe_mesh_lists &lists() const noexcept { return lists_; }
    const sitjorbe_mesh_counts &counts() const noexcept { return counts_; }
    const sitjorbe_field_lists &field() const noexcept { return field_; }
    const sitjorbe_record &record() const noexcept { return record_; }

  private:
    friend class paver;
    struct release {
        void operator()(void *memory) const noexcept { std::free(memory); }
    };

    mesh(const outline &o, const sitjorbe_settings &settings) : outline_(o), settings_(settings) {}

    /** Memory for the lists, or false; the refusal then, if it is one. */
    bool lend(std::size_t growth, std::uint32_t &refusal) {
        const sitjorbe_outline o = outline_.lent();
        const sitjorbe_list_lengths lengths = sitjorbe_list_lengths_for(&o, &settings_, growth);
        refusal = lengths.refusal ? lengths.refusal : no_memory;
        memory_.reset(lengths.refusal ? nullptr : std::malloc(sitjorbe_list_bytes(&lengths) + 1));
        growth_ = growth;
        if (memory_)
            sitjorbe_cut_lists(memory_.get(), &lengths, &field_, &lists_, &scratch_);
        return bool(memory_);
    }

    template <class T> static void copy(T *to, const T *from, std::size_t count) {
        if (count > 0)
            std::memcpy(to, from, count * sizeof(T));
    }

    /** The same mesh in lists of about twice as many places. */
    bool grow() {
        const std::unique_ptr<void, release> kept = std::move(memory_);
        const sitjorbe_mesh_lists old = lists_;
        const sitjorbe_field_lists field = field_;
        std::uint32_t refusal;
        if (!lend(2 * growth_, refusal)) {
            memory_.reset();
            counts_ = {};
            return false;
        }
        copy(field_.values, field.values, field.values_len);
        copy(field_.marks, field.marks, field.marks_len);
        copy(lists_.xs, old.xs, counts_.nodes);
        copy(lists_.ys, old.ys, counts_.nodes);
        copy(lists_.next, old.next, counts_.nodes);
        copy(lists_.prev, old.prev, counts_.nodes);
        copy(lists_.origins, old.origins, counts_.nodes);
        copy(lists_.quads, old.quads, 4 * counts_.quads);
        copy(lists_.edges, old.edges, 2 * counts_.edges);
        copy(lists_.loops, old.loops, old.loops_len);
        copy(lists_.loop_lengths, old.loop_lengths, old.loop_lengths_len);
        return true;
    }

    outline outline_;
    sitjorbe_settings settings_;
    std::unique_ptr<void, release> memory_;
    std::size_t growth_ = 1;
    sitjorbe_field_lists field_ = {};
    sitjorbe_mesh_lists lists_ = {};
    sitjorbe_scratch scratch_ = {};
    sitjorbe_record record_ = {};
    sitjorbe_mesh_counts counts_ = {};
    std::size_t loops_ = 0;
    std::uint32_t end_ = 0;
    bool whole_ = false;
};

/** Paves outlines with quads of a size. */
class paver {
  public:
    /** For quads with sides of about this length in degrees, 0.01 to 100, with at most so many sweeps of the field and passes of the paving. */
    explicit paver(double size, std::size_t sweeps = 400, std::size_t passes = 600) noexcept : settings_{size, sweeps, passes} {}

    /** Paves an outline. Where places run out the run is made again with twice as many: it places the same quads and goes on. */
    result<mesh> pave(const outline &o) const {
        for (std::size_t growth = 1;; growth *= 2) {
            mesh made(o, settings_);
            std::uint32_t refusal;
            if (!made.lend(growth, refusal))
                return result<mesh>::refused(refusal);
            const sitjorbe_outline lent = o.lent();
            const sitjorbe_pave_answer answer = sitjorbe_pave_with(&lent, &settings_, &made.field_, &made.lists_, &made.scratch_);
            if (answer.refusal)
                return result<mesh>::refused(answer.refusal);
            if (answer.end == SITJORBE_END_FULL)
                continue;
            made.record_ = sitjorbe_pave_record(answer);
            made.counts_ = sitjorbe_pave_counts(answer);
            made.loops_ = answer.loops;
            made.end_ = answer.end;
            made.whole_ = answer.whole;
            return result<mesh>(std::move(made));
        }
    }

  private:
    sitjorbe_settings settings_;
};

inline exam::exam(const mesh &on) : mesh_(&on), thresholds_(on.node_count()), results_{thresholds_.data(), thresholds_.size(), 0, 0} {
    static_cast<void>(ask({SITJORBE_DESK, SITJORBE_BEGIN, 0, 0, 0, 0}));
}

inline sitjorbe_exam_answer exam::ask(const sitjorbe_asked &asked) {
    results_ = lent(thresholds_.data());
    return sitjorbe_exam_with(&mesh_->lists(), &mesh_->counts(), &asked, &results_, nullptr, 0);
}

inline sitjorbe_exam_answer exam::read(const sitjorbe_asked &asked) const {
    // The entry reads the list alone.
    const sitjorbe_results results = lent(const_cast<std::uint16_t *>(thresholds_.data()));
    return sitjorbe_exam_read_with(&mesh_->lists(), &mesh_->counts(), &asked, &results, nullptr, 0);
}

} // namespace sitjorbe

#endif
