% Arithmetic nested 20,000 deep, to the left, to the right and under one sign.
sum_left(N, T) :- sum_left(N, 0, T).
sum_left(0, T, T).
sum_left(N, A, T) :- N > 0, M is N - 1, sum_left(M, A + 1, T).
sum_right(0, 0).
sum_right(N, 1 + T) :- N > 0, M is N - 1, sum_right(M, T).
minus(0, 7).
minus(N, - T) :- N > 0, M is N - 1, minus(M, T).
