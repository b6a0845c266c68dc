# shellcheck shell=bash
# Sourced by the scripts that make the examples' formulas: variables, clauses, gates, and the text in QDIMACS. It needs
# bash 4.1 or later and no other program. README.md beside it says what the prefix and the gates mean.
#
# A variable is a number, given out from 1 on. A literal is a variable, or its negation: the number with a minus sign. A
# script keeps the number of a variable under a name, so that `clause -$a $b` says "not a, or b".
#
# A variable gets its number where it is bound, and each new one is bound innermost, to the right of all before it. So the
# order of the calls in a script is the order of the prefix.
#
# A script that is called with --names prints the names of its variables in place of the formula, as `tools/play --names` reads them: the name
# that a variable is kept under, or the one that `name` gives it.

variables=0 # how many there are
prefix=     # the quantifier sets so far, as QDIMACS writes them; the last set is still without its closing 0
last=       # the quantifier of the last set: e, a, or nothing at the beginning
clauses=()  # the clauses so far, each a line of QDIMACS
kept=()     # for each variable the name that it is kept under, if that is no place of an array
called=()   # for each variable the name that `name` gives it
asked=formula
for word; do [ "$word" != --names ] || asked=names; done

# exists NAME..: a new existential variable for each name. The player who wants the formula to be true chooses its value.
exists() { bind e "$@"; }

# forall NAME..: a new universal variable for each name. It stands for any value, as if an opponent chose it.
forall() { bind a "$@"; }

# bind QUANTIFIER NAME..: what both have in common. The number is kept under the name, which may be a place of an array
# too: `exists "high[t]"`.
bind() {
    local quantifier=$1 name
    shift
    # A set goes on as long as its quantifier stays the same, since the sets of QDIMACS alternate.
    if [ "$quantifier" != "$last" ]; then
        prefix+=${last:+" 0"$'\n'}$quantifier
        last=$quantifier
    fi
    for name; do
        variables=$((variables + 1))
        printf -v "$name" %d "$variables"
        [[ $name == *\[* ]] || kept[variables]=$name
        prefix+=" $variables"
    done
}

# name VARIABLE NAME: this variable is called so by print_names
name() { called[$1]=$2; }

# clause LITERAL..: at least one of these is true. All clauses together must hold.
clause() { clauses+=("$* 0"); }

# when LITERAL.. : LITERAL..: if all before the colon are true, so is at least one behind it. With nothing behind the colon:
# they are not all true. "A and B imply C or D" is the clause "not A, or not B, or C, or D".
when() {
    local body=()
    while [ "$1" != : ]; do
        body+=($((- $1)))
        shift
    done
    shift
    clause "${body[@]}" "$@"
}

# Gates. A formula in clauses has no place for "the and of A and B" inside a clause. So the output of a gate gets a
# variable C of its own, and clauses say that C has the value of the gate's function (Tseitin's encoding). For each value of
# the inputs they leave C one value alone. C is bound innermost and existential: it is set when the inputs are known, by the
# player who wants the clauses to hold, and that player has no choice.
#
# NAME is the name that C is kept under; in the lines below ${!1} is its number, and $2 and $3 are the literals A and B.

# and_gate NAME A B: C = A and B.   C -> A,  C -> B,  A and B -> C
and_gate() {
    exists "$1"
    clause "-${!1}" "$2"
    clause "-${!1}" "$3"
    clause "${!1}" $((- $2)) $((- $3))
}

# or_gate NAME A B: C = A or B.   A -> C,  B -> C,  C -> A or B
or_gate() {
    exists "$1"
    clause "${!1}" $((- $2))
    clause "${!1}" $((- $3))
    clause "-${!1}" "$2" "$3"
}

# xor_gate NAME A B: C = A xor B, true if one of them is true and the other is not. Of the eight rows of A, B and C four
# have the wrong C, and one clause forbids each: C A B = 1 0 0, 1 1 1, 0 1 0, 0 0 1.
xor_gate() {
    exists "$1"
    clause "-${!1}" "$2" "$3"
    clause "-${!1}" $((- $2)) $((- $3))
    clause "${!1}" $((- $2)) "$3"
    clause "${!1}" "$2" $((- $3))
}

# equal A B: A and B have the same value.   A -> B,  B -> A
equal() {
    clause $((- $1)) "$2"
    clause "$1" $((- $2))
}

# print_names: a line for each variable that has a name: its number and the name. A name that was used again belongs to the last variable.
print_names() {
    local variable name
    for ((variable = 1; variable <= variables; variable++)); do
        name=${kept[variable]:-}
        if [ "${called[variable]:-}" ]; then
            echo "$variable ${called[variable]}"
        elif [ "$name" ] && [ "${!name}" = "$variable" ]; then
            echo "$variable $name"
        fi
    done
}

# print_formula COMMENT..: the formula as QDIMACS 1.1, with a comment line for each word; or the names, if the script is called with --names
print_formula() {
    [ "$asked" = formula ] || { print_names && return; }
    printf 'c %s\n' "$@"
    printf 'p cnf %d %d\n' "$variables" "${#clauses[@]}"
    printf '%s 0\n' "$prefix"
    printf '%s\n' "${clauses[@]}"
}
