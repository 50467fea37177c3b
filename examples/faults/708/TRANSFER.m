MOVE(FROM,TO,SUM) ; moves a sum between two accounts
 LOCK +^ACCT(FROM),+^ACCT(TO)
 SET ^ACCT(FROM,"bal")=^ACCT(FROM,"bal")-SUM,^ACCT(TO,"bal")=^ACCT(TO,"bal")+SUM
 LOCK -^ACCT(TO),-^ACCT(FROM) QUIT
