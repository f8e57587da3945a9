kind(variable, _).
kind(one, 1).
kind(two, 2).
kind(minus_one, -1).
kind(sum, 1 + 1).
kind(atom, a).
kind(list, [1]).
kind(by_zero, 1 // 0).
kind(overflow, 2305843009213693951 + 1).
