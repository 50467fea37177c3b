YEAR(N) ; adds the year's interest to the accounts 1 to N
 NEW ID
 FOR ID=1:1:N LOCK +^ACCT(ID) SET ^ACCT(ID,"bal")=^ACCT(ID,"bal")*^RATE("year")
 LOCK  QUIT
