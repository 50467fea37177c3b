NEXT(CIRCLE) ; the next number of a circle
 NEW N
 LOCK +^SEQ(CIRCLE)
 SET N=$GET(^SEQ(CIRCLE))+1,^SEQ(CIRCLE)=N
 LOCK -^SEQ(CIRCLE)
 QUIT N
BILL(ID) ; numbers are taken under other locks: theirs has the highest rank
 NEW NO
 LOCK +^BILL(ID)
 SET NO=$$NEXT("BILL"),^BILL(ID,NO)=$HOROLOG
 LOCK -^BILL(ID) QUIT
