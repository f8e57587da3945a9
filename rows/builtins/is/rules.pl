kind(variable, _).
kind(integer, 3).
kind(negative, -3).
kind(atom, foo).
kind(empty_list, []).
kind(list, [1]).
kind(compound, foo(1, bar)).
kind(slash, 1 / 2).
kind(power, '**'(2, 3)).
kind(plus_three, +(1, 2, 3)).
kind(prefix_plus, +(1)).
kind(double_minus, - - 4).
kind(sum, 1 + 2 * 3).
kind(quoted, '+'(1, 2)).
kind(variable_inside, 1 + _).
kind(atom_inside, 1 + a).
kind(first_error_left, a + _).
kind(first_error_right, _ + a).
kind(unknown_first, foo(_)).
kind(divides_by_zero, 1 // 0).
kind(rem_zero, 1 rem 0).
kind(mod_zero, 1 mod 0).
kind(zero_by_zero, 0 // 0).
kind(error_before_zero, _ // 0).
kind(error_in_divisor, 1 // (1 + a)).
kind(call, call(1)).
kind(max, max(1, 2)).
kind(abs, abs(-1)).
