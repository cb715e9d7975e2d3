% A refusal, status 3: the second term has a goal that is not supported, and the line names file, term and cause.
:- module(findall, [all/1]).
all(L) :- findall(X, item(X), L).
item(a).
