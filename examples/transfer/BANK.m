MOVE(FROM,TO,SUM) ; moves a sum, where both accounts can be had within five seconds
 LOCK +(^ACCT(FROM),^ACCT(TO)):5 ELSE  QUIT
 SET ^ACCT(FROM)=$GET(^ACCT(FROM))-SUM,^ACCT(TO)=$GET(^ACCT(TO))+SUM
 DO NOTE(FROM,SUM)
 LOCK -(^ACCT(FROM),^ACCT(TO)) QUIT
NOTE(WHO,SUM) ; writes the log, under the log's lock
 LOCK +^LOG SET ^LOG($JOB)=WHO_" "_SUM LOCK -^LOG QUIT
