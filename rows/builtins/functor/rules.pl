kind(variable, _).
kind(zero, 0).
kind(two, 2).
kind(negative, -1).
kind(too_many, 256).
kind(most, 255).
kind(atom, a).
kind(empty_list, []).
kind(compound, f(_, b)).
kind(list, [a]).
kind(string_like, 'A b').
