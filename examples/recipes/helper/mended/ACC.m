ADD(ID,SUM) ; adds to an account
 DO GRAB(ID) ELSE  QUIT "busy"
 SET ^ACCT(ID)=$GET(^ACCT(ID))+SUM
 LOCK -^ACCT(ID) QUIT "done"
EMPTY(ID) ; closes an account
 DO TRY(ID) ELSE  QUIT "busy"
 KILL ^ACCT(ID)
 LOCK -^ACCT(ID) QUIT "done"
GRAB(ID) ; claims an account: the caller asks $TEST
 LOCK +^ACCT(ID):5 QUIT
TRY(ID) ; the same, up to three times
 NEW I
 IF 0
 FOR I=1:1:3 LOCK +^ACCT(ID):2 QUIT:$TEST  HANG 1
 QUIT
