% Each test of a term with each kind of term.
kind(variable, _).
kind(zero, 0).
kind(negative, -7).
kind(largest, 2305843009213693951).
kind(smallest, -2305843009213693952).
kind(atom, ada).
kind(empty_list, []).
kind(braces, {}).
kind(symbols, +).
kind(quoted, 'Ada L.').
kind(no_bytes, '').
kind(compound, f(_)).
kind(ground, f(a)).
kind(list, [a,b]).
kind(partial_list, [a|_]).
kind(pair, (a,b)).
kind(no_body, (a,1)).
kind(minus_one, -(1)).
kind(deep, f(g(h(_)))).
