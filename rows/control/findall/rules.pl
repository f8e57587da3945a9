a(1). a(2). a(3).
pair(X, Y) :- a(X), a(Y).
cut_in(L) :- findall(X, ( a(X), ! ), L).
cut_in(behind).
kind(variable, _).
kind(empty_list, []).
kind(list, [1, 2, 3]).
kind(short_list, [1]).
kind(partial, [1|_]).
kind(open_partial, [_, _, _|_]).
kind(integer, 3).
kind(atom, a).
kind(compound, f(x)).
kind(improper, [1|2]).
