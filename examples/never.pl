% Predicates that never succeed have the answer `none`: loop/1 calls itself, and missing/1 has no clause. So later/1,
% which stands behind them, is never called and has no row.
:- module(never, [try/1]).
:- entry try(X).

try(X) :- loop(X), later(X).
try(X) :- missing(X), later(X).

loop(X) :- loop(X).

later(a).
