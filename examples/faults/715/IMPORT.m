ROW(TEXT) ; books a row of the day's file, as "4711;20"
 LOCK +^ACCT($PIECE(TEXT,";"))
 SET ^ACCT($PIECE(TEXT,";"),"in")=$PIECE(TEXT,";",2)
 LOCK -^ACCT($PIECE(TEXT,";")) QUIT
