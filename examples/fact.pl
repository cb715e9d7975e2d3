% Arithmetic: behind `N > 0` and `M is N-1` both N and M are ground integers, and so the answer is ground for every call.
:- module(fact, [fact/2]).
:- entry fact(N, F).

fact(0, 1).
fact(N, F) :- N > 0, M is N-1, fact(M, G), F is N*G.
