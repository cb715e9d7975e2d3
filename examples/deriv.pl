% Symbolic derivation of an expression by a variable of it.
:- module(deriv, [d/3]).
:- entry d(E, X, D) : (ground(E), ground(X)).
:- entry d(E, X, D) : ground(X).

d(U+V, X, DU+DV) :- d(U, X, DU), d(V, X, DV).
d(U-V, X, DU-DV) :- d(U, X, DU), d(V, X, DV).
d(U*V, X, DU*V+U*DV) :- d(U, X, DU), d(V, X, DV).
d(U^s(N), X, DU*s(N)*U^N) :- d(U, X, DU).
d(-U, X, -DU) :- d(U, X, DU).
d(x(X), X, s(0)).
d(c(_), _, 0).
