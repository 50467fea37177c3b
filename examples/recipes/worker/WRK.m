START(Q) ; starts a worker where none lives: a worker holds ^WRK(Q) as long as it does
 LOCK +^WRK(Q):0 ELSE  QUIT 0
 LOCK -^WRK(Q)
 JOB RUN(Q)
 QUIT 1
RUN(Q) ; a worker
 NEW WHAT
 LOCK +^WRK(Q):2 ELSE  QUIT
 SET ^WRK(Q,"begun")=$HOROLOG
 FOR  QUIT:$$STOPPED(Q)  SET WHAT=$$TAKE(Q) DO:WHAT'="" ONE(WHAT) HANG:WHAT="" 5
 KILL ^WRK(Q)
 LOCK -^WRK(Q) QUIT
STOP(Q) ; asks a worker to stop: the flag has a lock of its own, since the worker holds ^WRK(Q)
 LOCK +^STOP(Q) SET ^STOP(Q)=1 LOCK -^STOP(Q) QUIT
STOPPED(Q) ; whether it is to stop; the flag is taken away
 NEW YES
 LOCK +^STOP(Q) SET YES=$GET(^STOP(Q)) KILL ^STOP(Q) LOCK -^STOP(Q)
 QUIT YES
TAKE(Q) ; the first piece of work, or nothing
 NEW N,WHAT
 SET WHAT=""
 LOCK +^Q(Q)
 SET N=$ORDER(^Q(Q,"")) IF N'="" SET WHAT=^Q(Q,N) KILL ^Q(Q,N)
 LOCK -^Q(Q) QUIT WHAT
ONE(ID) LOCK +^PAT(ID) SET ^PAT(ID,"seen")=$HOROLOG LOCK -^PAT(ID) QUIT
