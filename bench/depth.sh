#!/usr/bin/env bash
# Measures analyses under terms cut at a depth, at the depths 1, 3 and 8: 10 and 20 copies of programs over lists; a tokenizer with
# 50 and 200 atoms, each of which begins with two characters, and whose states are atoms; a chain of predicates that build a term
# of the depth and more; and terms nested to the reader's limit in clause heads and bodies, 10 and 40 of them. Prints the status,
# the rows, the bytes printed and the time, and how many times it grew from the size before. PLAI names another program than ./plai.
. "$(dirname "$0")/lib.sh"

python3 - "$folder" <<'PYTHON'
from modules import write


LISTS = """
app@([], L, L).
app@([H|T], L, [H|R]) :- app@(T, L, R).
rev@([], A, A).
rev@([H|T], A, R) :- rev@(T, [H|A], R).
select@(X, [X|T], T).
select@(X, [H|T], [H|R]) :- select@(X, T, R).
perm@([], []).
perm@(L, [H|T]) :- select@(H, L, R), perm@(R, T).
zip@([], [], []).
zip@([X|Xs], [Y|Ys], [X-Y|R]) :- zip@(Xs, Ys, R).
len@([], 0).
len@([_|T], N) :- len@(T, M), N is M + 1.
all@(X, Y, Z) :- rev@(X, [], A), perm@(A, B), zip@(B, Y, D), app@(D, Z, E), len@(E, N), next@([N, end], Y, Z).
"""


def lists(count):
    """So many copies of list programs, each of which calls the next one with a list of two."""
    text = [LISTS.replace("next@", f"all{(i + 1) % count}").replace("@", str(i)) for i in range(count)]
    write(f"lists_{count}", ":- entry all0(X, Y, Z).", *text)


def tokenizer(count):
    """A tokenizer over lists of characters: so many atoms, each of which begins with two characters and leads to a state."""
    rules = []
    for i in range(count):
        first, second = f"c{i // 15}", f"d{i % 15}"
        rules.append(f"step(word, [{first}, {second}|T], t(atom{i}, at(N, P)), s{i % 7}, T, N, P).")
        rules.append(f"kind(atom{i}, kind{i % 10}).")
    states = [f"step(s{i}, [blank|T], t(skip, at(N, N)), word, T, N, _)." for i in range(7)]
    write(
        f"tokenizer_{count}",
        ":- entry start(L, Ts) : nonvar(L).",
        ":- entry probe(K).",
        "start(L, Ts) :- tokens(word, L, Ts).",
        "tokens(_, [], []).",
        "tokens(S, L, [T|Ts]) :- step(S, L, T, S1, R, 1, _), name(T, _), tokens(S1, R, Ts).",
        "name(t(A, at(_, _)), K) :- kind(A, K).",
        "name(t(skip, _), none).",
        "probe(K) :- step(word, [c0, d1, c0, d2], t(A, _), S, [X, Y], 1, 2), step(S, [blank, X, Y], _, W, R, 1, 2), step(W, R, t(B, _), _, [], 1, 2), kind(A, K), kind(B, _).",
        *rules,
        *states,
    )


def towers(count):
    """A chain of predicates, each of which puts a functor around what it has."""
    lines = [":- entry start(T).", "start(T) :- tower0(a, T).", "start(T) :- tower0(f(1, g(b)), T)."]
    for i in range(count):
        lines.append(f"tower{i}(X, T) :- tower{(i + 1) % count}(f{i % 5}(X, k(X, {i})), T).")
        lines.append(f"tower{i}(X, X).")
    write(f"towers_{count}", *lines)


def nested(count):
    """So many predicates whose heads and bodies have terms of 1,990 levels."""
    lines = [":- entry deep0(X)."]
    for i in range(count):
        head = "f(a, " * 1990 + f"X{i}" + ")" * 1990
        body = "g(" * 1990 + f"X{i}" + ")" * 1990
        lines.append(f"deep{i}({head}) :- deep{(i + 1) % count}({body}).")
        lines.append(f"deep{i}({body}).")
    write(f"nested_{count}", *lines)


for count in (10, 20):
    lists(count)
for count in (50, 200):
    tokenizer(count)
for count in (20, 40):
    towers(count)
for count in (10, 40):
    nested(count)
PYTHON

for shape in lists:10,20 tokenizer:50,200 towers:20,40 nested:10,40; do
  for depth in 1 3 8; do
    last=0
    for size in $(echo "${shape##*:}" | tr , ' '); do
      measure "${shape%%:*} $size at depth $depth" "$folder/${shape%%:*}_$size.pl" --domain depth --depth "$depth"
    done
  done
done
