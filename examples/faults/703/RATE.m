RAISE(ID,BY) ; gives an account more than the base rate
 LOCK +^ACCT(ID)
 SET ^ACCT(ID,"rate")=$GET(^RATE("base"))+BY
 SET ^RATE("last")=ID
 LOCK -^ACCT(ID) QUIT
