LOW(MIN) ; who goes through all items holds the second lock, and needs no lock for each
 NEW I SET I=""
 LOCK +^STKALL
 FOR  SET I=$ORDER(^STK(I)) QUIT:I=""  WRITE:^STK(I)<MIN !,I
 LOCK -^STKALL QUIT
PUT(I,N) ; who changes an item holds both
 LOCK +(^STK(I),^STKALL) SET ^STK(I)=N LOCK -(^STK(I),^STKALL) QUIT
SHOW(I) ; who reads one item holds either
 LOCK +^STK(I) WRITE $GET(^STK(I)) LOCK -^STK(I) QUIT
