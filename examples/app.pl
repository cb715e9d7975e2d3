% Lists joined: from two ground lists the third is ground.
:- module(app, [app/3]).
:- entry app(X, Y, Z) : (ground(X), ground(Y)).

app([], L, L).
app([H|T], L, [H|R]) :- app(T, L, R).
