% no rules
