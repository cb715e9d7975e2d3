#!/usr/bin/env bash
# Measures analyses under sharing. First the largest sets: a literal with a compound of 16 new variables, whose star has 65,535
# groups, and of 17, where the analysis stops. Then the time of a literal against the number of groups of the state: a predicate of
# 4, 7, 10 and 13 arguments of which nothing is known has 15, 127, 1,023 and 8,191 groups; its body has 200 literals, each of an
# atom, which meets no group, or each of one of the arguments, which meets half of them. Then programs as they are written:
# predicates of 8 arguments with lists and accumulators, and clauses of 20 variables, at three sizes. Prints the status, the rows, the bytes
# printed and the time, and how many times it grew from the line before of the same shape. PLAI names another program than ./plai.
. "$(dirname "$0")/lib.sh"

python3 - "$folder" <<'PYTHON'
from modules import write


def numbered(letter, count):
    return [f"{letter}{i}" for i in range(count)]


def star(count):
    """A literal with a compound of so many new variables."""
    compound = f"f({', '.join(numbered('A', count))})"
    write(f"star_{count}", ":- entry p.", f"p :- q({compound}).", "q(_).")


def literals(name, arity, goal):
    """A predicate of so many arguments of which nothing is known, with 200 literals."""
    args = ", ".join(numbered("X", arity))
    write(f"{name}_{2 ** arity - 1}", f":- entry p({args}).", f"p({args}) :- {', '.join([goal] * 200)}.", "q(_).")


ROW = """
scan@([], _, A, A, B, B, C, C).
scan@([H|T], P, A0, A, B0, B, C0, C) :- H = k(K, V), K =< P, scan@(T, P, [V|A0], A, B0, B, [K|C0], C).
scan@([H|T], P, A0, A, B0, B, C0, C) :- H = k(K, V), K > P, scan@(T, P, A0, A, [V|B0], B, [H|C0], C).
merge@([], L, L, N, N, S, S, end).
merge@([X|Xs], Ys, [X|Zs], N0, N, S0, S, E) :- N1 is N0 + 1, merge@(Ys, Xs, Zs, N1, N, [X|S0], S, E).
turn@(A, B, C, D, E, F, G, H) :- scan@(A, B, [], P, [], Q, [], R), merge@(P, Q, S, 0, N, [], T, U), C = f(S, N), D = g(T, U),
    wide@(A, R, S, T, C, V), E = [V|F], next@(B, A, G, H, E, F, W, W).
wide@(A, B, C, D, E, t(A1, B1, C1, D1, E1)) :- part(A, A1, A2), part(B, B1, B2), part(C, C1, C2), part(D, D1, D2), E = f(E1, E2),
    same(A2, B2, X), same(C2, D2, Y), same(X, Y, Z), last(Z, E2, _).
"""


def programs(count):
    """So many copies of predicates of 8 arguments and of a clause of some 20 variables, each of which calls the next one."""
    text = [ROW.replace("next@", f"turn{(i + 1) % count}").replace("@", str(i)) for i in range(count)]
    args = ", ".join(numbered("X", 8))
    write(
        f"programs_{count}",
        f":- entry turn0({args}) : (ground(X0), ground(X1), var(X2), var(X3), indep(X2, X3)).",
        *text,
        "part([H|T], H, T).",
        "part([], none, []).",
        "same(X, X, X).",
        "same(X, _, X).",
        "last(X, X, X).",
    )


star(16)
star(17)
for arity in (4, 7, 10, 13):
    literals("atoms", arity, "q(a)")
    literals("arguments", arity, "q(X1)")
for count in (1, 4, 16):
    programs(count)
PYTHON

for shape in star:16,17 atoms:15,127,1023,8191 arguments:15,127,1023,8191 programs:1,4,16; do
  last=0
  for size in $(echo "${shape##*:}" | tr , ' '); do
    measure "${shape%%:*} $size" "$folder/${shape%%:*}_$size.pl" --domain share
  done
done
