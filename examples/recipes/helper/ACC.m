ADD(ID,SUM) ; adds to an account
 IF '$$GRAB(ID) QUIT "busy"
 SET ^ACCT(ID)=$GET(^ACCT(ID))+SUM
 LOCK -^ACCT(ID) QUIT "done"
GRAB(ID) LOCK +^ACCT(ID):5 QUIT $TEST
