ADD(Q,WHAT) ; to the end
 NEW N
 LOCK +^Q(Q)
 SET N=$GET(^Q(Q))+1,^Q(Q)=N,^Q(Q,N)=WHAT
 LOCK -^Q(Q) QUIT
TAKE(Q) ; the first, or nothing where the queue is empty or in use
 NEW N,WHAT
 SET WHAT=""
 LOCK +^Q(Q):3 ELSE  QUIT ""
 SET N=$ORDER(^Q(Q,"")) IF N'="" SET WHAT=^Q(Q,N) KILL ^Q(Q,N)
 LOCK -^Q(Q) QUIT WHAT
