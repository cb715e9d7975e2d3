#!/usr/bin/env bash
# Measures how long an analysis takes from scratch: chains of predicates that shuffle their arguments (4, 8 and 12 of them, in
# clauses of 12, 32 and 60 slots at the sizes 1, 2 and 3), programs over lists, arithmetic with comparisons, and clauses that copy
# compounds of 8, 15 and 22 variables argument by argument, or put 5, 10 and 15 arguments into one compound, whose variables stand
# far apart. Then clauses whose variables hang together in ways that a fixed order of quantification is slow on: 8, 16 and 24 triples
# that share one variable, which is the clause's first, one in the middle or its last; 6, 12 and 18 triples that share two; a grid of
# 2 by 2, 4 by 4 and 6 by 6 variables. And bodies of 4,096, 8,192 and 12,288 literals: of one variable, of 40 variables, of pairs of
# these that are unified, and of triples of these. The words are the sizes, 1 2 3 where there are none, so that growth shows; a
# larger size has more predicates. Prints the number of rows, the time, and how many times it grew from the size before.
set -eu
here=$(cd "$(dirname "$0")/.." && pwd)
plai=${PLAI:-$here/plai}
folder=$(mktemp -d)
trap 'rm -rf "$folder"' EXIT
[ $# -gt 0 ] || set -- 1 2 3

python3 - "$folder" "$@" <<'PYTHON'
import random
import sys

folder, sizes = sys.argv[1], [int(word) for word in sys.argv[2:]]


def chain(size):
    """Each predicate calls the next with its arguments shuffled and two variables exchanged; the last calls one in the middle."""
    choose = random.Random(size)
    arity, each, count = min(4 * size, 12), min(size, 3), 10 * size
    slots = range(arity * each)

    def arguments(order):
        parts = [order[i:i + each] for i in range(0, len(order), each)]
        return ", ".join("f(" + ",".join(f"X{v}" for v in part) + ")" for part in parts)

    yield f":- entry p0({', '.join(f'A{i}' for i in range(arity))}) : ({', '.join(f'ground(A{i + 1})' for i in range(0, arity - 1, 2))})."
    for number in range(count):
        order = [v for i in choose.sample(range(arity), arity) for v in slots[i * each:(i + 1) * each]]
        first, second = choose.sample(slots, 2)
        order[first], order[second] = order[second], order[first]
        follower = number + 1 if number + 1 < count else count // 2
        yield f"p{number}({arguments(list(slots))}) :- p{follower}({arguments(order)})."
        ends = choose.sample(range(arity), arity)
        terms = {}
        for i in range(0, arity, 4):
            terms[ends[i]], terms[ends[i + 1]] = f"Y{i}", f"f(a,Y{i})"
            terms[ends[i + 2]], terms[ends[i + 3]] = "b", f"g(Y{i},Z{i})"
        yield f"p{number}({', '.join(terms[i] for i in range(arity))})."


LISTS = """
app@([], L, L).
app@([H|T], L, [H|R]) :- app@(T, L, R).
rev@([], []).
rev@([H|T], R) :- rev@(T, S), app@(S, [H], R).
select@(X, [X|T], T).
select@(X, [H|T], [H|R]) :- select@(X, T, R).
perm@([], []).
perm@(L, [H|T]) :- select@(H, L, R), perm@(R, T).
part@([], _, [], []).
part@([X|Xs], P, [X|L], G) :- X =< P, part@(Xs, P, L, G).
part@([X|Xs], P, L, [X|G]) :- X > P, part@(Xs, P, L, G).
sort@([], []).
sort@([H|T], S) :- part@(T, H, L, G), sort@(L, A), sort@(G, B), app@(A, [H|B], S).
zip@([], [], []).
zip@([X|Xs], [Y|Ys], [X-Y|R]) :- zip@(Xs, Ys, R).
all@(X, Y, Z) :- rev@(X, A), perm@(A, B), sort@(B, C), zip@(C, Y, D), app@(D, Z, E), next@(E, Y, Z).
"""

ARITHMETIC = """
fib@(N, N) :- N =< 1.
fib@(N, F) :- N > 1, A is N - 1, B is N - 2, fib@(A, FA), fib@(B, FB), F is FA + FB.
gcd@(A, 0, A).
gcd@(A, B, G) :- B > 0, C is A mod B, gcd@(B, C, G).
sum@([], S, S).
sum@([X|Xs], A, S) :- B is A + X, sum@(Xs, B, S).
range@(L, H, []) :- L > H.
range@(L, H, [L|T]) :- L =< H, M is L + 1, range@(M, H, T).
power@(_, 0, 1).
power@(X, N, P) :- N > 0, M is N - 1, power@(X, M, Q), P is Q * X.
all@(X, Y, Z) :- fib@(X, A), gcd@(A, Y, B), range@(1, B, L), sum@(L, 0, C), power@(C, B, Z), next@(Z, B, _).
"""


def repeated(text, count):
    """So many copies of the text, each of which calls the next one; the last calls the first."""
    yield ":- entry all0(X, Y, Z) : ground(X)."
    yield ":- entry all0(X, Y, Z) : (ground(X), ground(Y))."
    for number in range(count):
        yield text.replace("next@", f"all{(number + 1) % count}").replace("@", str(number))


def records(size):
    """Each predicate copies a compound argument by argument and puts arguments into a compound, and the next one takes two of them."""
    fields, taken, count = 7 * size + 1, 5 * size, 10 * size
    left, right = ([f"{letter}{i}" for i in range(fields)] for letter in "AB")
    goals = ", ".join(f"same({a}, {b})" for a, b in zip(left, right))
    some = ", ".join(left[:taken])
    yield ":- entry copy0(X, Y)."
    for number in range(count):
        yield f"copy{number}(s({', '.join(left)}), s({', '.join(right)})) :- {goals}, make{number}({', '.join(right[:taken])}, _)."
        follower = f" :- copy{number + 1}(A0, A1)" if number + 1 < count else ""
        yield f"make{number}({some}, s({some})){follower}."
    yield "same(X, X)."


TRIPLE = "e(f(A, B), A, B)."


def hub(place):
    """Triples that share one variable, which comes first, in the middle or last among the clause's."""
    def shape(size):
        left, right = ([f"{letter}{i}" for i in range(8 * size)] for letter in "XY")
        arguments = [f"r({', '.join(left)})", f"s({', '.join(right)})"]
        arguments.insert(place, "C")
        yield ":- entry p(A, B, C)."
        yield TRIPLE
        yield f"p({', '.join(arguments)}) :- {', '.join(f'e(C, {a}, {b})' for a, b in zip(left, right))}."
    return shape


def hubs(size):
    """Triples that share one of two variables, each over the same pairs."""
    left, right = ([f"{letter}{i}" for i in range(6 * size)] for letter in "XY")
    yield ":- entry p(A, B, C, D)."
    yield TRIPLE
    goals = ", ".join(f"e(C, {a}, {b}), e(D, {a}, {b})" for a, b in zip(left, right))
    yield f"p(r({', '.join(left)}), s({', '.join(right)}), C, D) :- {goals}."


def grid(size):
    """Each variable of a grid is made of those above it and to its left."""
    side = range(2 * size)
    goals = ", ".join(f"e(V{i}_{j}, V{i - 1}_{j}, V{i}_{j - 1})" for i in side[1:] for j in side[1:])
    yield ":- entry p(A, B)."
    yield TRIPLE
    yield f"p(V0_0, V{2 * size - 1}_{2 * size - 1}) :- {goals}."


def conjunction(goals):
    """The goals in order, as a tree of conjunctions that is not deep."""
    while len(goals) > 1:
        pairs = zip(goals[::2], goals[1::2])
        goals = [f"({first}, {second})" for first, second in pairs] + goals[len(goals) // 2 * 2:]
    return goals[0]


def body(fact, goal, variables):
    """A long body of goals with variables that are chosen at random."""
    def shape(size):
        choose = random.Random(size)
        goals = [goal.format(*(f"X{choose.randrange(variables)}" for _ in range(3))) for _ in range(4096 * size)]
        yield ":- entry p(A)."
        yield fact
        yield f"p(X0) :- {conjunction(goals)}."
    return shape


shapes = {
    "hub_first": hub(0),
    "hub_middle": hub(1),
    "hub_last": hub(2),
    "two_hubs": hubs,
    "grid": grid,
    "body": body("q(_).", "q({0})", 1),
    "body_facts": body("q(a).", "q({0})", 40),
    "body_pairs": body("q(X, X).", "q({0}, {1})", 40),
    "body_triples": body("q(f(A, B), A, B).", "q({0}, {1}, {2})", 40),
    "chain": chain,
    "records": records,
    "lists": lambda size: repeated(LISTS, 10 * size * size),
    "arithmetic": lambda size: repeated(ARITHMETIC, 10 * size * size),
}
for name, shape in shapes.items():
    for size in sizes:
        with open(f"{folder}/{name}_{size}.pl", "w") as out:
            out.write("\n".join([":- module(m, []).", *shape(size)]) + "\n")
PYTHON

"$plai" "$here/examples/app.pl" < /dev/null > "$folder/out"
for name in chain records lists arithmetic hub_first hub_middle hub_last two_hubs grid body body_facts body_pairs body_triples; do
  last=0
  for size in "$@"; do
    file=$folder/${name}_$size.pl
    before=$(date +%s%N)
    status=0
    timeout 120 "$plai" "$file" < /dev/null > "$folder/out" || status=$?
    time=$((($(date +%s%N) - before) / 1000000))
    rows=$(grep -c '^row ' "$folder/out" || true)
    growth=
    [ "$last" -eq 0 ] || growth=", $((time * 10 / last / 10)).$((time * 10 / last % 10)) times"
    echo "$name $size: status $status, $(wc -l < "$file") lines, $rows rows, $(stat -c %s "$folder/out") bytes, $time ms$growth"
    last=$time
  done
done
