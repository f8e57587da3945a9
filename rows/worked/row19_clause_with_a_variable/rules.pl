:- clauses(price/2). price(X,3). price(pear,4).
