% Quicksort of Peano numbers. Lists are joined by another module.
:- module(sort, [qsort/2]).
:- use_module(lists, [app/3]).
:- entry qsort(X, Y) : ground(X).

qsort([], []).
qsort([H|T], S) :- part(T, H, L, G), qsort(L, SL), qsort(G, SG), app(SL, [H|SG], S).

part([], _, [], []).
part([X|Xs], P, [X|L], G) :- at_most(X, P), part(Xs, P, L, G).
part([X|Xs], P, L, [X|G]) :- greater(X, P), part(Xs, P, L, G).

at_most(0, _).
at_most(s(X), s(Y)) :- at_most(X, Y).

greater(s(_), 0).
greater(s(X), s(Y)) :- greater(X, Y).
