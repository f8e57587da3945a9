% Numbers of two digits whose square ends in them; and a magic line.
digit(0). digit(1). digit(2). digit(3). digit(4). digit(5). digit(6). digit(7). digit(8). digit(9).
two_digits(N) :- digit(A), A > 0, digit(B), N is 10 * A + B.
automorphic(N) :- two_digits(N), N * N mod 100 =:= N.
reversible(N, M) :- digit(A), A > 0, digit(B), B > 0, A < B, N is 10 * A + B, M is 10 * B + A, (N + M) mod 7 =:= 0.
