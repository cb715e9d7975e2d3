% The module that the quicksort imports from.
:- module(lists, [app/3]).

app([], L, L).
app([H|T], L, [H|R]) :- app(T, L, R).
