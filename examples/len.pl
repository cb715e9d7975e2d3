% The length of a list as a Peano number: it is ground, whatever the items are.
:- module(len, [len/2]).
:- entry len(X, Y).

len([], 0).
len([_|T], s(N)) :- len(T, N).
