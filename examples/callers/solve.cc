// A small solver that has its own proof checked. usage: solve FORMULA [TRACE]
// It searches with clause and cube learning, and hands each step over to the library as soon as it has it. It prints the line of the
// library's verdict on its proof. If a second file is named, it also writes the proof there as text. The status is that of qrp_cmd.
#include <algorithm>
#include <cstddef>
#include <cstdint>
#include <cstdlib>
#include <fstream>
#include <iostream>
#include <iterator>
#include <map>
#include <new>
#include <qrp_check.h>
#include <stdexcept>
#include <string>
#include <vector>

typedef std::vector<std::int32_t> Literals;
typedef std::vector<std::uint64_t> Steps;

static void print_line(const qrp_verdict &verdict) {
    char line[QRP_LINE_ROOM];
    qrp_verdict_line(&verdict, line, sizeof line);
    std::cout << line;
}

// The formula and the steps so far, as the library holds them.
class Proof {
public:
    Proof() : held() { must_be_added(qrp_proof_new(&held)); }
    ~Proof() { qrp_proof_free(&held); }
    Proof(const Proof &) = delete; // of two copies only one may be used
    Proof &operator=(const Proof &) = delete;

    void add_variable(bool universal, std::int32_t variable) {
        must_be_added(qrp_proof_variable(&held, universal, static_cast<std::uint32_t>(variable)));
    }

    void add_clause(const Literals &clause) { must_be_added(qrp_proof_clause(&held, clause.data(), clause.size())); }

    // The number of the new step.
    std::uint64_t add_step(const Literals &literals, const Steps &antecedents) {
        must_be_added(
            qrp_proof_step(&held, last + 1, literals.data(), literals.size(), antecedents.data(), antecedents.size()));
        return ++last;
    }

    qrp_verdict check(bool sat) {
        qrp_verdict verdict;
        qrp_proof_check(&held, sat, false, &verdict);
        return verdict;
    }

    // Writes the proof to a file, as text.
    void write(const char *path, bool sat) {
        // With no room the call returns how much is needed.
        qrp_verdict verdict;
        const std::size_t length = qrp_proof_write_trace(&held, sat, nullptr, 0, &verdict);
        std::vector<char> text(length + 1);
        if (length == 0 || qrp_proof_write_trace(&held, sat, text.data(), text.size(), &verdict) == 0) throw std::bad_alloc();
        std::ofstream file(path, std::ios::binary);
        file.write(text.data(), static_cast<std::streamsize>(length));
        if (!file.flush()) throw std::runtime_error(path + std::string(": it cannot be written"));
    }

private:
    qrp_proof held;
    std::uint64_t last = 0; // the number of the last step
    static void must_be_added(std::int32_t status) {
        if (status == QRP_NO_MEMORY) throw std::bad_alloc();
        if (status != QRP_ADDED) throw std::logic_error("a piece is refused: qrp_added " + std::to_string(status));
    }
};

// A clause that follows, or a cube, with the number of its step. It is reduced: a clause without a universal literal that comes after all
// its existential ones, and a cube the other way round.
struct Constraint {
    bool is_cube;
    Literals literals;
    std::uint64_t step;
    bool has(std::int32_t variable) const {
        return std::any_of(literals.begin(), literals.end(), [=](std::int32_t literal) { return std::abs(literal) == variable; });
    }
};

class Solver {
public:
    Proof proof;
    // The text is in canonical form: after the header each line is a set or a clause.
    explicit Solver(const std::string &formula) {
        const char *at = formula.c_str() + formula.find('\n') + 1;
        while (*at != '\0') {
            const char first = *at;
            const bool is_set = first == 'a' || first == 'e';
            if (is_set) at++;
            Literals numbers;
            char *end;
            for (long number; (number = std::strtol(at, &end, 10)) != 0; at = end)
                numbers.push_back(static_cast<std::int32_t>(number));
            at = end + 1;
            if (is_set) add_block(first == 'a', numbers);
            else add_clause(numbers);
        }
    }

    // Whether the formula is true. The last step is then the empty cube, or else the empty clause.
    bool solve() { return search(0).is_cube; }

private:
    struct Variable {
        bool universal;
        std::size_t block; // the place of its first variable
        int value; // 1 or -1 if it is set to true or false, else 0
    };
    std::map<std::int32_t, Variable> variables;
    std::vector<std::int32_t> order; // from outermost to innermost
    std::vector<Literals> clauses;       // those of the formula that are not tautologies
    std::vector<Constraint> constraints; // the same, reduced, and what was learned

    void add_block(bool universal, const Literals &block) {
        const std::size_t place = order.size();
        for (std::int32_t variable : block) {
            proof.add_variable(universal, variable);
            variables[variable] = Variable{universal, place, 0};
            order.push_back(variable);
        }
    }

    void add_clause(Literals clause) {
        proof.add_clause(clause);
        std::sort(clause.begin(), clause.end());
        clause.erase(std::unique(clause.begin(), clause.end()), clause.end());
        for (std::int32_t literal : clause)
            if (std::binary_search(clause.begin(), clause.end(), -literal)) return;
        clauses.push_back(clause);
        learn(false, clause, Steps());
    }

    const Variable &variable_of(std::int32_t literal) const { return variables.at(std::abs(literal)); }
    int value_of(std::int32_t literal) const { return literal > 0 ? variable_of(literal).value : -variable_of(literal).value; }

    // The literals without those of the reduced quantifier that come after all others.
    Literals reduced(bool is_cube, const Literals &literals) const {
        std::size_t end = 0; // reducible are those from this place on
        for (std::int32_t literal : literals)
            if (variable_of(literal).universal == is_cube) end = std::max(end, variable_of(literal).block + 1);
        Literals kept;
        for (std::int32_t literal : literals)
            if (variable_of(literal).block < end) kept.push_back(literal);
        return kept;
    }

    // Hands a step over that has these antecedents, and keeps it.
    Constraint learn(bool is_cube, const Literals &literals, Steps antecedents) {
        const Literals kept = reduced(is_cube, literals);
        // An initial cube is reduced in a step of its own; a clause and a resolvent are reduced at once.
        if (is_cube && antecedents.empty() && kept != literals) antecedents.push_back(proof.add_step(literals, antecedents));
        constraints.push_back(Constraint{is_cube, kept, proof.add_step(kept, antecedents)});
        return constraints.back();
    }

    // Whether the values decide the game by this constraint: the literals of a clause are all false, or those of a cube all true.
    bool decides(const Constraint &constraint) const {
        const int wanted = constraint.is_cube ? 1 : -1;
        return std::all_of(constraint.literals.begin(), constraint.literals.end(),
                           [this, wanted](std::int32_t literal) { return value_of(literal) == wanted; });
    }

    // Finds a true literal of each clause, if possible an existential one, since these can be reduced.
    bool all_clauses_hold(Literals &cube) const {
        for (const Literals &clause : clauses) {
            std::int32_t chosen = 0;
            for (std::int32_t literal : clause)
                if (value_of(literal) == 1 && (chosen == 0 || !variable_of(literal).universal)) chosen = literal;
            if (chosen == 0) return false;
            if (std::find(cube.begin(), cube.end(), chosen) == cube.end()) cube.push_back(chosen);
        }
        return true;
    }

    // The variables before this place of the order have values. Returns a constraint that decides the game then.
    Constraint search(std::size_t place) {
        for (const Constraint &constraint : constraints)
            if (decides(constraint)) return constraint;
        Literals cube;
        if (all_clauses_hold(cube)) return learn(true, cube, Steps());
        // Not all variables have values, since then each clause is true or false.
        const std::int32_t variable = order[place];
        const Constraint first = search_with(variable, 1, place);
        if (!first.has(variable)) return first; // the value plays no part, so the other one need not be tried
        const Constraint second = search_with(variable, -1, place);
        if (!second.has(variable)) return second;
        return resolved(first, second, variable);
    }

    Constraint search_with(std::int32_t variable, int value, std::size_t place) {
        variables[variable].value = value;
        const Constraint found = search(place + 1);
        variables[variable].value = 0;
        return found;
    }

    // Both have the variable, with different signs, so both are clauses, if it is existential, or else cubes.
    Constraint resolved(const Constraint &first, const Constraint &second, std::int32_t pivot) {
        Literals literals;
        for (const Literals *parent : {&first.literals, &second.literals})
            for (std::int32_t literal : *parent)
                if (std::abs(literal) != pivot && std::find(literals.begin(), literals.end(), literal) == literals.end())
                    literals.push_back(literal);
        return learn(first.is_cube, literals, Steps{first.step, second.step});
    }
};

// The text of the file in canonical form. If it is refused, the line is printed, and the program ends.
static std::string canonical(const char *path) {
    std::ifstream file(path, std::ios::binary);
    if (!file) throw std::runtime_error(path + std::string(": it cannot be read"));
    const std::string text((std::istreambuf_iterator<char>(file)), std::istreambuf_iterator<char>());
    // With no room the call returns how much is needed.
    qrp_verdict verdict;
    const std::size_t length = qrp_format(text.data(), text.size(), nullptr, 0, &verdict);
    std::string formula(length + 1, ' ');
    if (length == 0 || qrp_format(text.data(), text.size(), &formula[0], formula.size(), &verdict) == 0) {
        print_line(verdict);
        std::exit(verdict.status);
    }
    formula.resize(length);
    return formula;
}

int main(int count, char **words) {
    if (count != 2 && count != 3) {
        std::cerr << "usage: solve FORMULA [TRACE]\n";
        return 5;
    }
    try {
        Solver solver(canonical(words[1]));
        const bool sat = solver.solve();
        const qrp_verdict verdict = solver.proof.check(sat);
        print_line(verdict);
        if (count == 3) solver.proof.write(words[2], sat);
        return verdict.status;
    } catch (const std::bad_alloc &) {
        std::cout << "NO MEMORY\n";
        return QRP_NO_MEMORY;
    } catch (const std::exception &error) {
        std::cerr << error.what() << '\n';
        return 3;
    }
}
