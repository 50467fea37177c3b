PAYIN(ID,SUM) ; pays a sum into an account
 NEW BAL SET BAL=$GET(^ACCT(ID,"bal"))
 LOCK +^ACCT(ID)
 SET ^ACCT(ID,"bal")=BAL+SUM
 LOCK -^ACCT(ID) QUIT
