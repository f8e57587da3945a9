% One of each kind, smallest first; equal ones stand side by side.
kind(variable, _).
kind(smallest, -2305843009213693952).
kind(minus_one, -1).
kind(zero, 0).
kind(nine, 9).
kind(ten, 10).
kind(no_bytes, '').
kind(upper, 'Z').
kind(empty_list, []).
kind(a, a).
kind(ab, ab).
kind(b, b).
kind(unary, z(0)).
kind(binary, a(0, 0)).
kind(binary_later, a(0, 1)).
kind(later_name, b(0, 0)).
kind(ternary, a(0, 0, 0)).
