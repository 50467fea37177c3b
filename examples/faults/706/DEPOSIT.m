DEP(ID,SUM) ; pays a sum in, where the account can be had within five seconds
 LOCK +^ACCT(ID):5
 IF  SET ^ACCT(ID,"bal")=$GET(^ACCT(ID,"bal"))+SUM
 LOCK -^ACCT(ID) QUIT
