kind(variable, _).
kind(integer, 3).
kind(atom, a).
kind(compound, f(X, Y, X)).
kind(ground, f(a, [b])).
kind(partial_list, [a, B|_]).
