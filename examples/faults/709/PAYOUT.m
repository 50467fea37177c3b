PAYOUT(ID,SUM) ; pays a sum out, if the balance is enough
 LOCK +^ACCT(ID)
 IF ^ACCT(ID,"bal")<SUM QUIT
 SET ^ACCT(ID,"bal")=^ACCT(ID,"bal")-SUM
 LOCK -^ACCT(ID) QUIT
